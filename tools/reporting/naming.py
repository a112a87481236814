"""The device that a control block belongs to: by an SCL file, or by the block's reference."""


class Devices:
    """Which device sends a control block: by an SCL file its IED, else the logical device that its reference begins with."""

    def __init__(self, controls=()):
        self.ieds = {control.told(): control.owner[0] for control in controls}

    def parts(self, reference):
        """The device of a block, and the rest of its reference: the whole one where the device is no prefix of it."""
        device, slash, rest = reference.partition("/")
        ied = self.ieds.get(reference)
        if ied and not device.startswith(ied):
            return ied, reference
        if ied and ied != device:
            return ied, reference[len(ied):]
        return (device, rest) if slash else ("", reference)

    def order(self, name, *more):
        """By what tables and lanes are ordered: by device, then by name."""
        return (*self.parts(name), *more)
