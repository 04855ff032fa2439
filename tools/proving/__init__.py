"""What tools/theorem writes into the crate of a proof."""
