"""Why a play is not baked."""


class NotBaked(Exception):
    """What no component can be made to do truthfully, and the line of the script that wants it."""

    def __init__(self, why, line=None):
        super().__init__(why if line is None else f"script line {line}: {why}")
        self.why, self.line = why, line
