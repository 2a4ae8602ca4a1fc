// What other files need of the map of stand-ins.
#pragma once
#include <functional>

namespace stand_in {

// Lets an adapter's class stop by `own_stop`, and ends the discoveries of the stand-in over it, if there is one.
void stop(const void *widget, const std::function<void()> &own_stop);

} // namespace stand_in
