"""Lives of the daemon as their transcripts tell them: read, drawn as a page, and made scripts again."""
