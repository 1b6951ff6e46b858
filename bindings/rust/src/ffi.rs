//! The C interface, as `include/lca.h` declares it.

extern "C" {
    pub fn lca_version() -> u32;

    pub fn lca_check(
        parents: *const u16,
        parents_len: usize,
        work: *mut u16,
        work_len: usize,
        value: *mut u64,
    ) -> u32;

    pub fn lca_build(
        parents: *const u16,
        parents_len: usize,
        label: *mut u16,
        label_len: usize,
        tour: *mut u16,
        tour_len: usize,
        lift: *mut u16,
        lift_len: usize,
        order: *mut u16,
        order_len: usize,
        work: *mut u16,
        work_len: usize,
        value: *mut u64,
    ) -> u32;

    pub fn lca_compare(
        parents: *const u16,
        parents_len: usize,
        label: *const u16,
        label_len: usize,
        tour: *const u16,
        tour_len: usize,
        lift: *const u16,
        lift_len: usize,
        order: *const u16,
        order_len: usize,
        work: *mut u16,
        work_len: usize,
        value: *mut u64,
    ) -> u32;

    pub fn lca_pairs_by_labels(
        parents: *const u16,
        parents_len: usize,
        label: *const u16,
        label_len: usize,
        tour: *const u16,
        tour_len: usize,
        lift: *const u16,
        lift_len: usize,
        order: *const u16,
        order_len: usize,
        work: *mut u16,
        work_len: usize,
        question: *const u16,
        question_len: usize,
        answer: *mut u16,
        answer_len: usize,
        value: *mut u64,
    ) -> u32;

    pub fn lca_pairs_by_tour(
        parents: *const u16,
        parents_len: usize,
        label: *const u16,
        label_len: usize,
        tour: *const u16,
        tour_len: usize,
        lift: *const u16,
        lift_len: usize,
        order: *const u16,
        order_len: usize,
        work: *mut u16,
        work_len: usize,
        question: *const u16,
        question_len: usize,
        answer: *mut u16,
        answer_len: usize,
        value: *mut u64,
    ) -> u32;

    pub fn lca_pairs_by_lifts(
        parents: *const u16,
        parents_len: usize,
        label: *const u16,
        label_len: usize,
        tour: *const u16,
        tour_len: usize,
        lift: *const u16,
        lift_len: usize,
        order: *const u16,
        order_len: usize,
        work: *mut u16,
        work_len: usize,
        question: *const u16,
        question_len: usize,
        answer: *mut u16,
        answer_len: usize,
        value: *mut u64,
    ) -> u32;

    pub fn lca_list(
        parents: *const u16,
        parents_len: usize,
        label: *const u16,
        label_len: usize,
        tour: *const u16,
        tour_len: usize,
        lift: *const u16,
        lift_len: usize,
        order: *const u16,
        order_len: usize,
        work: *mut u16,
        work_len: usize,
        question: *const u16,
        question_len: usize,
        answer: *mut u16,
        answer_len: usize,
        value: *mut u64,
    ) -> u32;

    pub fn lca_trail(
        parents: *const u16,
        parents_len: usize,
        label: *const u16,
        label_len: usize,
        tour: *const u16,
        tour_len: usize,
        lift: *const u16,
        lift_len: usize,
        order: *const u16,
        order_len: usize,
        work: *mut u16,
        work_len: usize,
        question: *const u16,
        question_len: usize,
        answer: *mut u16,
        answer_len: usize,
        trail: *mut u16,
        trail_len: usize,
        value: *mut u64,
    ) -> u32;

    pub fn lca_subtree(
        parents: *const u16,
        parents_len: usize,
        label: *const u16,
        label_len: usize,
        tour: *const u16,
        tour_len: usize,
        lift: *const u16,
        lift_len: usize,
        order: *const u16,
        order_len: usize,
        work: *mut u16,
        work_len: usize,
        part: usize,
        start: *mut u64,
        value: *mut u64,
    ) -> u32;

    pub fn lca_totals(
        parents: *const u16,
        parents_len: usize,
        work: *mut u16,
        work_len: usize,
        counts: *const u32,
        counts_len: usize,
        totals: *mut u64,
        totals_len: usize,
        value: *mut u64,
    ) -> u32;
}
