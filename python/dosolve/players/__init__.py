"""Players: plans by states, players of histories, and what they are worth."""
