"""Groups in rounds, by the command `replay`: random pasts, fair rounds behind them, and what members' files hold then."""
