# Photons in a gate window of 1 us. The edge before the window opens, the one after it closes and the falling one aren't
# seen. The stamp of the first photon is kept, and those behind it are counted. Then none is left: the stamp is -1.
def main():
    at_mu(2000)
    end = in0.gate_rising_mu(1000)
    first = in0.timestamp_mu(end)
    others = in0.count(end)
    set_dataset("first", first)
    set_dataset("others", others)
    set_dataset("none", in0.timestamp_mu(end))
