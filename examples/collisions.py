# What becomes of outputs of one cycle. ttl0: the second one replaces the first. ttl1: the second one has another stamp, and
# collides. raw0: nothing is replaced, so the second one collides. Last, the ninth output of a cycle finds no lane, and is
# out of sequence.
def main():
    at_mu(1000)
    ttl0.off()
    ttl0.on()
    at_mu(2000)
    ttl1.on()
    delay_mu(1)
    ttl1.off()
    at_mu(3000)
    raw0.on()
    raw0.off()
    at_mu(4000)
    ttl0.off()
    ttl1.off()
    ttl2.on()
    ttl3.on()
    ttl4.on()
    ttl5.on()
    ttl6.on()
    ttl7.on()
    ttl8.on()
