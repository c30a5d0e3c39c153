# A pulse that comes too late on purpose. `wait_until_mu` lets the counter pass the moment for which the pulse is planned, so
# its first output raises RTIOUnderflow. The `except` takes it, and gives the pulse anew, 125 us ahead of the counter.
def main():
    late = 0
    at_mu(1000)
    ttl0.pulse_mu(200)
    core.wait_until_mu(5000)
    try:
        at_mu(3000)
        ttl1.pulse_mu(200)
    except RTIOUnderflow:
        late = 1
        core.break_realtime()
        ttl1.pulse_mu(200)
    set_dataset("late", late)
