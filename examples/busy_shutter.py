# A shutter on ttl0 that takes ten cycles, 80 mu, for each change. A pulse of 200 mu is carried out. The end of one of 40 mu finds
# the shutter busy and is lost: the shutter stays open until it is closed again.
def main():
    at_mu(1000)
    ttl0.pulse_mu(200)
    delay_mu(1000)
    ttl0.pulse_mu(40)
    delay_mu(1000)
    ttl0.off()
