// Tests of GoogleTest for the tests: two of them must fail.
#include "filskeam_gtest.hpp"

namespace {

void passes(filskeam::Run& run) { run.set_verdict("pass"); }
void fails(filskeam::Run& run) { run.set_verdict("fail", "too hot"); }

class Heater : public filskeam::BenchTest {};
class HeaterOf : public filskeam::BenchTest, public ::testing::WithParamInterface<int> {};

TEST_F(Heater, passes) { run(passes); }
TEST_F(Heater, fails_as_it_should) { EXPECT_EQ(run(fails, "fail").local(0), "fail"); }
TEST_F(Heater, fails) { run(fails); }
TEST_F(Heater, hangs) { run([](filskeam::Run& run) { while (true) run.sleep(filskeam::Seconds(1)); }, "pass", filskeam::Seconds(0.3)); }
TEST_P(HeaterOf, a_name_of_a_value) { run(passes); }
INSTANTIATE_TEST_SUITE_P(All, HeaterOf, ::testing::Values(1), [](const auto& it) { return std::to_string(it.param); });

}  // namespace
