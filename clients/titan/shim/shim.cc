// Linked into a test executable with -Wl,--wrap=: logs a line for each answer to running and alive, which Titan's logs leave out.
#include <TTCN3.hh>
#include <stdio.h>

static void tell(const char* operation, int component, bool answer)
{
    char number[16];
    const char* who = number;
    snprintf(number, sizeof number, "%d", component);
    if (component == ANY_COMPREF) who = "any";
    if (component == ALL_COMPREF) who = "all";
    TTCN_Logger::log(TTCN_Logger::PARALLEL_UNQUALIFIED, "AUDIT %s %s -> %s", operation, who, answer ? "true" : "false");
}

extern "C" {
// TTCN_Runtime::component_running(int)
boolean __real__ZN12TTCN_Runtime17component_runningEi(int);
boolean __wrap__ZN12TTCN_Runtime17component_runningEi(int component)
{
    boolean answer = __real__ZN12TTCN_Runtime17component_runningEi(component);
    tell("running", component, answer);
    return answer;
}

// TTCN_Runtime::component_alive(int)
boolean __real__ZN12TTCN_Runtime15component_aliveEi(int);
boolean __wrap__ZN12TTCN_Runtime15component_aliveEi(int component)
{
    boolean answer = __real__ZN12TTCN_Runtime15component_aliveEi(component);
    tell("alive", component, answer);
    return answer;
}
}
