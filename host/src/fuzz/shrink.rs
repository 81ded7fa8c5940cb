//! Cuts a failing list of calls down by leaving out runs of calls, ever shorter ones.

/// The shortest list found for which `fails` still holds.
pub fn shrink<T: Clone>(list: &[T], mut fails: impl FnMut(&[T]) -> bool) -> Vec<T> {
    let mut list = list.to_vec();
    let mut run = (list.len() / 2).max(1);
    loop {
        let shorter = without_runs(&mut list, run, &mut fails);
        if run > 1 {
            run /= 2;
        } else if !shorter {
            return list;
        }
    }
}

/// Leaves out every run of the length that can be left out; says whether any could.
fn without_runs<T: Clone>(list: &mut Vec<T>, run: usize, fails: &mut impl FnMut(&[T]) -> bool) -> bool {
    let before = list.len();
    let mut end = list.len();
    while end > 0 {
        let start = end.saturating_sub(run);
        let mut tried = list[..start].to_vec();
        tried.extend_from_slice(&list[end..]);
        if fails(&tried) {
            *list = tried;
        }
        end = start;
    }
    list.len() < before
}

#[cfg(test)]
mod tests {
    use super::shrink;

    #[test]
    fn keeps_only_what_fails() {
        let list: Vec<u32> = (0..500).collect();
        let left = shrink(&list, |tried| tried.contains(&17) && tried.contains(&303));
        assert_eq!(left, [17, 303]);
    }
}
