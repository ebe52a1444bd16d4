"""Which replies of a run depend on whose rules it goes by: those of the profile or of the kernel."""
