"""Makes the vectors anew, of logs that `fire run` writes and of what is laid by hand. Nothing of it comes from
hardware."""
