"""Makes a page of a run to step through. No part of what is proved."""
