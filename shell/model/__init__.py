"""The pair as the program shows it: states, frames, events and reasons; and by which rules packets and records move states."""
