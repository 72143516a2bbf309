"""Programs that stand in for fdref, or for the driver that asks a system."""
