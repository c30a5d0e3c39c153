# A Ramsey scan. Each shot cools the ion with ttl0, gives two pi/2 pulses on ttl1 with a wait between them, and counts the
# photons on in0 while the detection light of ttl2 is on. Four waits are scanned, one shot each.

# A pi/2 pulse.
def half_pi():
    ttl1.pulse_mu(2_500)

# The photons of one shot. `break_realtime` puts the cursor 125 us ahead of the counter.
def shot(wait: int64) -> int32:
    core.break_realtime()
    ttl0.pulse_mu(20_000)
    delay_mu(1_000)
    half_pi()
    delay_mu(wait)
    half_pi()
    delay_mu(1_000)
    with parallel:
        ttl2.pulse_mu(10_000)
        end = in0.gate_rising_mu(10_000)
    return in0.count(end)

def main():
    waits = [5_000, 10_000, 15_000, 20_000]
    photons = [0] * 4
    for place in range(len(waits)):
        photons[place] = shot(waits[place])
    set_dataset("waits", waits)
    set_dataset("photons", photons)
