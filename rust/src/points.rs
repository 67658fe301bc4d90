//! Grains in points, for people.

/// Writes so many grains in points to three places, rounded to the nearest
/// thousandth, halves away from zero: a turned table has the same digits. What
/// rounds to zero has no minus.
///
/// ```
/// use margin_engine::points;
///
/// assert_eq!(points(20, 4), "5.000");
/// assert_eq!(points(-2, 3), "-0.667");
/// assert_eq!(points(-1, 10_000), "0.000");
/// ```
///
/// # Panics
///
/// Where `per_point` is not above zero; every answer's is.
pub fn points(grains: i64, per_point: i64) -> String {
    assert!(per_point > 0, "{per_point} grains in a point");
    let (grains, per_point) = (i128::from(grains), i128::from(per_point));
    let doubled = 2 * 1_000 * grains.abs() + per_point;
    let thousandths = doubled / (2 * per_point);
    let sign = if grains < 0 && thousandths > 0 {
        "-"
    } else {
        ""
    };
    format!("{sign}{}.{:03}", thousandths / 1_000, thousandths % 1_000)
}
