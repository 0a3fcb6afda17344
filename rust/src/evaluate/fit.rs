//! Least squares: the factors of a sum of terms that comes nearest to what was measured.

/// The factors x for which the sum of the squared differences between the rows' products with x and
/// the values is least; none where the columns depend on each other. Each row and its value are
/// divided by the value first, so that it is the relative differences that are squared.
pub fn relative(rows: &[Vec<f64>], values: &[f64]) -> Option<Vec<f64>> {
    let scaled: Vec<Vec<f64>> = rows
        .iter()
        .zip(values)
        .map(|(row, value)| row.iter().map(|term| term / value).collect())
        .collect();
    least_squares(&scaled, &vec![1.0; values.len()])
}

/// The same for the differences as they are, by the normal equations.
pub fn least_squares(rows: &[Vec<f64>], values: &[f64]) -> Option<Vec<f64>> {
    let terms = rows.first()?.len();
    let mut system = vec![vec![0.0; terms + 1]; terms];
    for (row, value) in rows.iter().zip(values) {
        for at in 0..terms {
            for other in 0..terms {
                system[at][other] += row[at] * row[other];
            }
            system[at][terms] += row[at] * value;
        }
    }
    solved(system)
}

/// Gaussian elimination with the largest pivot; the last column is the right-hand side.
fn solved(mut system: Vec<Vec<f64>>) -> Option<Vec<f64>> {
    let terms = system.len();
    for at in 0..terms {
        let largest = |&one: &usize, &other: &usize| {
            let sizes = [one, other].map(|row| system[row][at].abs());
            sizes[0].total_cmp(&sizes[1])
        };
        let pivot = (at..terms).max_by(largest)?;
        system.swap(at, pivot);
        let top = system[at].clone();
        if top[at].abs() < 1e-12 {
            return None;
        }
        for (row, line) in system.iter_mut().enumerate() {
            let factor = line[at] / top[at];
            if row != at {
                line.iter_mut()
                    .zip(&top)
                    .for_each(|(value, top)| *value -= factor * top);
            }
        }
    }
    Some(
        (0..terms)
            .map(|at| system[at][terms] / system[at][at])
            .collect(),
    )
}

#[cfg(test)]
mod tests {
    use super::*;

    fn near(one: &[f64], other: &[f64]) -> bool {
        one.iter()
            .zip(other)
            .all(|(one, other)| (one - other).abs() < 1e-6)
    }

    #[test]
    fn exact_values_give_the_factors_back() {
        let rows: Vec<Vec<f64>> = [
            [1.0, 2.0, 30.0],
            [1.0, 5.0, 7.0],
            [1.0, 1.0, 1.0],
            [1.0, 9.0, 400.0],
        ]
        .map(|row| row.to_vec())
        .to_vec();
        let values: Vec<f64> = rows
            .iter()
            .map(|row| 20.0 + 3.0 * row[1] + 0.5 * row[2])
            .collect();
        assert!(near(
            &least_squares(&rows, &values).unwrap(),
            &[20.0, 3.0, 0.5]
        ));
        assert!(near(&relative(&rows, &values).unwrap(), &[20.0, 3.0, 0.5]));
    }

    #[test]
    fn a_line_through_scattered_points() {
        let rows: Vec<Vec<f64>> = [0.0, 1.0, 2.0].map(|x| vec![1.0, x]).to_vec();
        let fitted = least_squares(&rows, &[0.0, 3.0, 3.0]).unwrap();
        assert!(near(&fitted, &[0.5, 1.5]));
    }

    #[test]
    fn columns_that_depend_on_each_other_have_no_fit() {
        let rows: Vec<Vec<f64>> = [1.0, 2.0, 3.0].map(|x| vec![x, 2.0 * x]).to_vec();
        assert_eq!(least_squares(&rows, &[1.0, 2.0, 3.0]), None);
        assert_eq!(least_squares(&[], &[]), None);
    }
}
