// The ends of OLA's adapters with OLA's own class, which is the yardstick.
#include "../checks.hpp"

#include <ola/Logging.h>

int main() {
    ola::InitLogging(ola::OLA_LOG_WARN, ola::OLA_LOG_STDERR);
    tests::test_adapters();
    std::printf("%u passed, %u failed\n", tests::passed, tests::failed);
    return tests::failed > 0;
}
