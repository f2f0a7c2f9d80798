// Benches in GoogleTest. A test that gets another verdict than the wanted one fails, and says why:
//
//     class Heater : public filskeam::BenchTest {};
//     TEST_F(Heater, stays_cool) { run(heater_stays_cool); }
//     TEST_F(Heater, gets_too_hot) { run(broken_heater, "fail"); }
#pragma once

#include <gtest/gtest.h>

#include "filskeam.hpp"

namespace filskeam {

// Each suite has its own server. Evidence is appended to the file that FILSKEAM_EVIDENCE names.
class BenchTest : public ::testing::Test {
protected:
    static void SetUpTestSuite() {
        const char* file = std::getenv("FILSKEAM_EVIDENCE");
        server_ = std::make_unique<Server>(std::vector<std::string>(), file != nullptr ? file : "");
    }
    static void TearDownTestSuite() { server_.reset(); }

    // Runs a test case with the name of the test.
    static Result run(Behaviour main, const std::string& wanted = "pass", Seconds limit = Seconds(60)) {
        std::string name = ::testing::UnitTest::GetInstance()->current_test_info()->name();
        std::replace(name.begin(), name.end(), '/', '_');
        Result result = server_->run(name.substr(0, 32), std::move(main), limit);
        RecordProperty("verdict", result.verdict);
        RecordProperty("why", result.why);
        EXPECT_EQ(result.verdict, wanted) << result.report();
        return result;
    }

private:
    static inline std::unique_ptr<Server> server_;
};

}  // namespace filskeam
