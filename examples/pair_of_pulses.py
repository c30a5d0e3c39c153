# ttl0 goes up at 1000 mu and down at 1500 mu.
def main():
    at_mu(1000)
    ttl0.on()
    delay_mu(500)
    ttl0.off()
