"""The checks of the gate that are Python: `checks/run` starts one by its name."""
