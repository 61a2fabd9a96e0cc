"""What hears of the walks, passes and bits of a trace."""


class Observer:
    """Hears what a trace tells; each call is for those who want it."""

    def entered(self, walk):
        """A walk begins."""

    def walked(self, walk):
        """A walk is over."""

    def left(self, walk):
        """A walk is over whose end no event shows."""

    def called(self, made):
        """do_shrink_slab is called."""

    def started(self, made):
        """A pass has counted and taken the deferred word."""

    def ended(self, made):
        """A pass has scanned and given its word back."""

    def returned(self, made, line):
        """do_shrink_slab returns; in a trace without probes a pass is over with its end."""

    def set_bit(self, event, probe):
        """A bit is set."""

    def handed(self, event, probe):
        """A group's lists are handed to its parent."""

    def carried(self, event, probe):
        """A group's deferred words were handed to its parent."""

    def came(self, event, probe):
        """A shrinker is registered."""

    def went(self, event, probe):
        """A shrinker is freed."""

    def killed(self, event):
        """A process is OOM-killed."""

    def marked(self, event):
        """Somebody wrote a mark."""

    def forgot(self, event):
        """Events are lacking before this one."""
