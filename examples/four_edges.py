# Four outputs in four cycles, 5 to 8. The core puts all of them out. Over a link to a satellite (`sat`) some come too late where
# credits come back a round too late, or where a round has two cycles; docs/SATELLITE.md explains both.
def main():
    at_mu(40)
    ttl0.on()
    delay_mu(8)
    ttl0.off()
    delay_mu(8)
    ttl1.on()
    delay_mu(8)
    ttl1.off()
