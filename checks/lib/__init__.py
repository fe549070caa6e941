"""What the checks share: where things are, rooms for stores, sessions that are played, frames, and what is wanted."""
