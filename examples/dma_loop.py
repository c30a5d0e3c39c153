# A sequence that is recorded once and played back again and again. In the record block the cursor begins at 0 and outputs
# are collected. Each playback puts them out at the cursor, and moves it on by the recording's length, 1000 mu. `get_handle`
# looks the name up once; the last playback is by name.
def main():
    with core_dma.record("shelving"):
        ttl1.pulse_mu(400)
        delay_mu(100)
        raw0.write(3, 0x2a)
        delay_mu(500)
    handle = core_dma.get_handle("shelving")
    set_dataset("handle", handle)
    core.break_realtime()
    for turn in range(3):
        core_dma.playback_handle(handle)
        delay_mu(1000)
    core_dma.playback("shelving")
