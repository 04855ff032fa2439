"""Writers of cases of the gate's programs, each with what these print."""
