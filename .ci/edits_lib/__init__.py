"""What .ci/edits is made of."""
