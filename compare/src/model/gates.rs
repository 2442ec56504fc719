//! Which farthest gates `SetMaxGates` may have, by request 7.

/// "Give 2 for a farthest gate of 0 or 1, in the place where gates above 8 get it": 2 to 8 are left, for the moving
/// gate and for the stationary one.
pub fn may_be_farthest(moving: u8, stationary: u8) -> bool {
    (2..=8).contains(&moving) && (2..=8).contains(&stationary)
}
