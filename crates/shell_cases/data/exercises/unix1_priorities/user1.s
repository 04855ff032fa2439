# Runs where no process is ready, until a line is raised.
stay:   j stay
