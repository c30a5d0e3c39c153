# The trap that everybody meets: the first output has no moment. The cursor begins at 0, and the counter stands in cycle 0,
# the stamps up to 7. So the output comes too late: RTIOUnderflow, status 6, and nothing is put out. An `at_mu(1000)` before
# it mends that; 8 is the first stamp that can be put out.
def main():
    ttl0.on()
    delay_mu(1000)
    ttl0.off()
