# Two pulses of one channel with a gap of 3 mu. The first one ends at 1100, the second one begins at 1103: one coarse cycle, 1096
# to 1103, and two stamps. So the second output collides, and the second pulse never begins. With a gap of 8 mu it does.
def main():
    at_mu(1000)
    ttl0.pulse_mu(100)
    delay_mu(3)
    ttl0.pulse_mu(100)
