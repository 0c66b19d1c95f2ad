//! Calls of all members of a group.
#![forbid(unsafe_code)]

use crate::group::Group;

impl Group<'_> {
    /// Returns the value of the member `root` at each member. The values of the others are dropped:
    /// `None` will do.
    ///
    /// # Panics
    ///
    /// Panics if there is no member `root`, or if it has no value.
    ///
    /// ```
    /// # let pool = cubejobs_pool::Pool::builder().workers_log2(2).build()?;
    /// let words = pool.run(2, |group| group.broadcast(3, (group.rank() == 3).then_some("go")));
    /// assert_eq!(words, ["go"; 4]);
    /// # Ok::<(), std::io::Error>(())
    /// ```
    pub fn broadcast<T: Clone + Send + 'static>(&self, root: usize, value: Option<T>) -> T {
        let from_root = self.relative_to(root);
        let mut value = value.filter(|_| from_root == 0);
        assert!(value.is_some() || from_root != 0, "the root of a broadcast has no value");
        for dim in (0..self.dim()).rev() {
            if from_root % (1 << dim) != 0 {
                continue;
            }
            let other = self.rank() ^ 1 << dim;
            match &value {
                Some(known) => self.send(other, known.clone()),
                None => value = Some(self.recv(other)),
            }
        }
        value.expect("each member gets the value")
    }

    /// Returns `combine` over all values, in the order of the ranks, at the member of rank 0. It is
    /// associative. The others get `None`.
    ///
    /// ```
    /// # let pool = cubejobs_pool::Pool::builder().workers_log2(1).build()?;
    /// let words = pool.run(1, |group| group.reduce(group.rank().to_string(), |a, b| a + &b));
    /// assert_eq!(words, [Some("01".to_string()), None]);
    /// # Ok::<(), std::io::Error>(())
    /// ```
    pub fn reduce<T: Send + 'static>(&self, value: T, combine: impl Fn(T, T) -> T) -> Option<T> {
        let mut value = value;
        for dim in 0..self.dim() {
            let other = self.rank() ^ 1 << dim;
            if other < self.rank() {
                self.send(other, value);
                return None;
            }
            value = combine(value, self.recv(other));
        }
        Some(value)
    }

    /// Returns `combine` over all values, in the order of the ranks, at each member. It is
    /// associative.
    ///
    /// ```
    /// # let pool = cubejobs_pool::Pool::builder().workers_log2(2).build()?;
    /// assert_eq!(pool.run(2, |group| group.all_reduce(group.rank(), |a, b| a + b)), [6; 4]);
    /// # Ok::<(), std::io::Error>(())
    /// ```
    pub fn all_reduce<T: Clone + Send + 'static>(&self, value: T, combine: impl Fn(T, T) -> T) -> T {
        (0..self.dim()).fold(value, |mine, dim| {
            let other = self.rank() ^ 1 << dim;
            let theirs = self.exchange(other, mine.clone());
            if other < self.rank() {
                combine(theirs, mine)
            } else {
                combine(mine, theirs)
            }
        })
    }

    /// Returns `combine` over the values of this member and of those with smaller ranks. It is
    /// associative.
    ///
    /// ```
    /// # let pool = cubejobs_pool::Pool::builder().workers_log2(2).build()?;
    /// assert_eq!(pool.run(2, |group| group.scan(1, |a, b| a + b)), [1, 2, 3, 4]);
    /// # Ok::<(), std::io::Error>(())
    /// ```
    pub fn scan<T: Clone + Send + 'static>(&self, value: T, combine: impl Fn(T, T) -> T) -> T {
        match self.exscan(value.clone(), &combine) {
            Some(before) => combine(before, value),
            None => value,
        }
    }

    /// Returns `combine` over the values of the members with smaller ranks, or `None` at rank 0. It
    /// is associative.
    ///
    /// ```
    /// # let pool = cubejobs_pool::Pool::builder().workers_log2(2).build()?;
    /// let sums = pool.run(2, |group| group.exscan(1, |a, b| a + b));
    /// assert_eq!(sums, [None, Some(1), Some(2), Some(3)]);
    /// # Ok::<(), std::io::Error>(())
    /// ```
    pub fn exscan<T: Clone + Send + 'static>(&self, value: T, combine: impl Fn(T, T) -> T) -> Option<T> {
        let (mut before, mut all) = (None, value);
        for dim in 0..self.dim() {
            let other = self.rank() ^ 1 << dim;
            let theirs = self.exchange(other, all.clone());
            if other < self.rank() {
                before = Some(match before {
                    Some(later) => combine(theirs.clone(), later),
                    None => theirs.clone(),
                });
                all = combine(theirs, all);
            } else {
                all = combine(all, theirs);
            }
        }
        before
    }

    /// Returns all values in the order of the ranks, at each member.
    ///
    /// ```
    /// # let pool = cubejobs_pool::Pool::builder().workers_log2(1).build()?;
    /// assert_eq!(pool.run(1, |group| group.all_gather(group.rank())), [[0, 1], [0, 1]]);
    /// # Ok::<(), std::io::Error>(())
    /// ```
    pub fn all_gather<T: Clone + Send + 'static>(&self, value: T) -> Vec<T> {
        self.all_reduce(vec![value], |mut lower, upper| {
            lower.extend(upper);
            lower
        })
    }

    /// Returns all values in the order of the ranks, at the member `root`. The others get `None`.
    ///
    /// # Panics
    ///
    /// Panics if there is no member `root`.
    ///
    /// ```
    /// # let pool = cubejobs_pool::Pool::builder().workers_log2(1).build()?;
    /// let all = pool.run(1, |group| group.gather(1, group.rank()));
    /// assert_eq!(all, [None, Some(vec![0, 1])]);
    /// # Ok::<(), std::io::Error>(())
    /// ```
    pub fn gather<T: Send + 'static>(&self, root: usize, value: T) -> Option<Vec<T>> {
        let from_root = self.relative_to(root);
        let mut values = vec![value];
        for dim in 0..self.dim() {
            let other = self.rank() ^ 1 << dim;
            if from_root >> dim & 1 == 1 {
                self.send(other, values);
                return None;
            }
            let theirs: Vec<T> = self.recv(other);
            values = if other < self.rank() { joined(theirs, values) } else { joined(values, theirs) };
        }
        Some(values)
    }

    /// Returns to each member the value at its rank in the list of the member `root`. The lists of
    /// the others are dropped: `None` will do.
    ///
    /// # Panics
    ///
    /// Panics if there is no member `root`, or if it has no list of as many values as there are
    /// members.
    ///
    /// ```
    /// # let pool = cubejobs_pool::Pool::builder().workers_log2(1).build()?;
    /// let letters = |rank: usize| (rank == 0).then(|| vec!['a', 'b']);
    /// let got = pool.run(1, |group| group.scatter(0, letters(group.rank())));
    /// assert_eq!(got, ['a', 'b']);
    /// # Ok::<(), std::io::Error>(())
    /// ```
    #[allow(clippy::must_use_candidate)] // a member may only wait for it
    pub fn scatter<T: Send + 'static>(&self, root: usize, values: Option<Vec<T>>) -> T {
        let from_root = self.relative_to(root);
        let mut values = values.filter(|_| from_root == 0).unwrap_or_default();
        let is_whole = from_root != 0 || values.len() == self.size();
        assert!(is_whole, "the root of a scatter has not one value for each member");
        for dim in (0..self.dim()).rev() {
            if from_root % (1 << dim) != 0 {
                continue;
            }
            let other = self.rank() ^ 1 << dim;
            if values.is_empty() {
                values = self.recv(other);
                continue;
            }
            let upper = values.split_off(1 << dim);
            let (mine, theirs) = if other < self.rank() { (upper, values) } else { (values, upper) };
            self.send(other, theirs);
            values = mine;
        }
        values.pop().expect("each member gets its value")
    }

    /// Gives each member one value, and returns the one that each member has for this one. Both
    /// lists are in the order of the ranks. The members exchange values in pairs, so a group of any
    /// size goes on.
    ///
    /// # Panics
    ///
    /// Panics if there are not as many values as members.
    ///
    /// ```
    /// # let pool = cubejobs_pool::Pool::builder().workers_log2(1).build()?;
    /// let letters = [["0 to 0", "0 to 1"], ["1 to 0", "1 to 1"]];
    /// let got = pool.run(1, |group| group.all_to_all(letters[group.rank()].to_vec()));
    /// assert_eq!(got, [["0 to 0", "1 to 0"], ["0 to 1", "1 to 1"]]);
    /// # Ok::<(), std::io::Error>(())
    /// ```
    pub fn all_to_all<T: Send + 'static>(&self, values: Vec<T>) -> Vec<T> {
        let has_all = values.len() == self.size();
        assert!(has_all, "a member of an all-to-all has not one value for each member");
        let mut places: Vec<Option<T>> = values.into_iter().map(Some).collect();
        for round in 1..self.size() {
            let other = self.rank() ^ round;
            let mine = places[other].take().expect("each partner has one round");
            places[other] = Some(self.exchange(other, mine));
        }
        places.into_iter().flatten().collect()
    }

    /// Returns this member's number on the ways from the root, which has 0.
    fn relative_to(&self, root: usize) -> usize {
        assert!(root < self.size(), "there is no rank {root} in a group of {}", self.size());
        self.rank() ^ root
    }
}

fn joined<T>(mut lower: Vec<T>, upper: Vec<T>) -> Vec<T> {
    lower.extend(upper);
    lower
}
