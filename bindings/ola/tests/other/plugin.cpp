// A plugin that is loaded by dlopen: its functions aren't among those that the dynamic linker finds after others.

namespace ola::plugin::usbpro {

class RobeWidgetImpl {
public:
    void Stop();
    int stops = 0;
};

void RobeWidgetImpl::Stop() { stops++; }

} // namespace ola::plugin::usbpro

// How often an adapter was stopped that is stopped once.
extern "C" int stop_once() {
    ola::plugin::usbpro::RobeWidgetImpl adapter;
    adapter.Stop();
    return adapter.stops;
}
