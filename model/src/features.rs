//! Which requests of document 02 that change texts or images are on.
//!
//! Each is on or off by itself, so that the model can be compared with a product that has
//! landed some of them and not others. Every function of the model goes by the features in
//! force on its thread: those landed, or others within `with`.

use std::cell::Cell;

#[derive(Clone, Copy, Debug, PartialEq, Eq)]
pub struct Features {
    /// Request A.2, names without letter case.
    pub names_without_case: bool,
    /// Request A.6, instructions 24 and 25 in images.
    pub pair_images: bool,
    /// Request A.6, rising and falling formulas in texts; their images come with them.
    pub pairs: bool,
    /// Request A.7, instruction 23 in images.
    pub timer_images: bool,
    /// Request A.7, timers in texts; their images come with them.
    pub timers: bool,
    /// Request A.13, watch formulas.
    pub watches: bool,
}

impl Features {
    /// What has landed: who lands a request changes its line here.
    pub const LANDED: Features = Features {
        names_without_case: true,
        pair_images: true,
        pairs: true,
        timer_images: true,
        timers: true,
        watches: true,
    };

    /// Document 01 and the requests that every model has.
    pub const NONE: Features = Features {
        names_without_case: false,
        pair_images: false,
        pairs: false,
        timer_images: false,
        timers: false,
        watches: false,
    };

    pub const ALL: Features = Features {
        names_without_case: true,
        pair_images: true,
        pairs: true,
        timer_images: true,
        timers: true,
        watches: true,
    };

    /// Whether images may have instructions 24 and 25.
    pub fn pair_codes(&self) -> bool {
        self.pair_images || self.pairs
    }

    /// Whether images may have instruction 23.
    pub fn timer_codes(&self) -> bool {
        self.timer_images || self.timers
    }

    /// Every set of requests, those that images alone have, and what has landed.
    pub fn sets() -> Vec<Features> {
        let set = |index: u32| Features {
            names_without_case: index & 1 != 0,
            pair_images: index & 2 != 0,
            pairs: index & 2 != 0,
            timer_images: index & 4 != 0,
            timers: index & 4 != 0,
            watches: index & 8 != 0,
        };
        let images = Features {
            pairs: false,
            timers: false,
            ..Features::ALL
        };
        let sets = (0..16).map(set);
        sets.chain([images, Features::LANDED]).collect()
    }
}

thread_local! {
    static IN_FORCE: Cell<Features> = const { Cell::new(Features::LANDED) };
}

/// The features in force on this thread.
pub fn in_force() -> Features {
    IN_FORCE.get()
}

/// Puts features back, after a panic too.
struct Back(Features);

impl Drop for Back {
    fn drop(&mut self) {
        IN_FORCE.set(self.0);
    }
}

/// Does the work with these features in force on this thread.
pub fn with<T>(features: Features, work: impl FnOnce() -> T) -> T {
    let _back = Back(IN_FORCE.replace(features));
    work()
}

#[cfg(test)]
mod tests {
    use super::*;

    #[test]
    fn features_come_back() {
        assert_eq!(in_force(), Features::LANDED);
        with(Features::ALL, || {
            with(Features::NONE, || assert_eq!(in_force(), Features::NONE));
            assert_eq!(in_force(), Features::ALL);
        });
        let panicked = std::panic::catch_unwind(|| with(Features::ALL, || panic!("on purpose")));
        assert!(panicked.is_err());
        assert_eq!(in_force(), Features::LANDED);
    }
}
