"""Tools that stand beside the gateway: a summary, an outside comparison and a picture of a run."""
