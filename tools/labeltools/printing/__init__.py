"""Which labels go out, and by what way."""
