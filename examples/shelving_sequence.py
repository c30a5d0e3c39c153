# Cooling light for 2 ms, a repump pulse, a shelving pulse and a detection window of 400 us, one
# after another with gaps, 125 us after the start.
def main():
    at_mu(125000)
    ttl0.on()
    delay_mu(2000000)
    ttl0.off()
    delay_mu(1000)
    ttl1.on()
    delay_mu(12500)
    ttl1.off()
    delay_mu(500)
    ttl2.on()
    delay_mu(10000)
    ttl2.off()
    delay_mu(1000)
    ttl3.on()
    delay_mu(400000)
    ttl3.off()
