# A scan of three delays in two rounds, with functions, a parallel block, arrays and a counted window. Each shot begins with
# `break_realtime`: `count` has waited until the window before has ended, and the counter stands there.

# Light on one of two channels for so long. The cursor ends where the light does.
@kernel
def light(on_first: bool, length: int64):
    if on_first:
        ttl0.pulse_mu(length)
    else:
        ttl1.pulse_mu(length)

# Whether so many photons mean a bright ion.
@kernel
def is_bright(photons: int32) -> bool:
    return photons > 4

@kernel
def main():
    bright = [0] * 3
    delays = [1_000, 2_000, 4_000]
    for shot in range(2):
        for place in range(len(delays)):
            core.break_realtime()
            with parallel:
                light(True, 800)
                light(False, 1_200)
            delay_mu(delays[place])
            ttl2.pulse_mu(0x190)
            end = in0.gate_rising_mu(400_000)
            if is_bright(in0.count(end)):
                bright[place] += 1
    set_dataset("bright", bright)
