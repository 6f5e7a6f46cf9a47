"""How the front is, for who runs it: metrics, whether it is ready, who is being answered, the access log, and the watchdog of systemd."""
