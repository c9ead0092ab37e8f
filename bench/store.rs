// The store of terms in plain Rust: the crates theory and terms without their contracts, for bench/run.
#![allow(dead_code, unused_imports)]

mod theory {
    mod limits {
        // Every limit of the product stands here, and in specs/Limits.antt.

        // The height of a term.
        pub const HIGHEST: u8 = 64;

        // The length of a list.
        pub const LONGEST: usize = 256;

        // The entries of a store.
        pub const MOST_ENTRIES: usize = 65_535;

        // The names of one goal.
        pub const MOST_NAMES: u32 = 256;

        // The places of a log.
        pub const MOST_PLACES: u32 = 65_535;

        // The parts of all entries of a store: no entry has more than a list of the greatest length.
        pub const MOST_ITEMS: usize = 16_776_960;

        // The open marks of a host.
        pub const MOST_MARKS: usize = 64;

        // The levels of a walk that resolves: its root is at level 1.
        pub const MOST_LEVELS: usize = 64;
    }

    mod words {
        // The vocabulary of terms.

        // A universe's number. Its width stands here alone.
        pub type Universe = u16;

        // An entry's number in a store.
        pub type Handle = u32;

        // The sorts of arguments.
        #[derive(Clone, Copy, PartialEq, Eq, Hash)]
        pub enum ArgSort {
            Ty,
            Region,
            Const,
        }

        // The sorts of inference variables that are no regions.
        #[derive(Clone, Copy, PartialEq, Eq, Hash)]
        pub enum VarSort {
            Ty,
            Int,
            Float,
            Const,
        }

        // The sorts of inference variables. The variables of each are numbered from 0.
        #[derive(Clone, Copy, PartialEq, Eq)]
        pub enum VariableSort {
            Ty,
            Int,
            Float,
            Region,
            Const,
        }

        // Lists, by what they hold: types, regions and constants; predicates; opaque pairs; nested goals; region constraints; kinds.
        #[derive(Clone, Copy, PartialEq, Eq, Hash)]
        pub enum ListSort {
            Arguments,
            Environment,
            OpaquePairs,
            Goals,
            Constraints,
            Kinds,
        }

        // The sorts of what a store holds.
        #[derive(Clone, Copy, PartialEq, Eq)]
        pub enum Sort {
            Argument(ArgSort),
            Predicate,
            OpaquePair,
            Goal,
            Constraint,
            Kind,
            List(ListSort),
        }

        // The kind of a canonical variable: a type variable with its universe and sub root, an integer or a float variable,
        // a region or a constant variable with its universe, a placeholder with its universe and number.
        #[derive(Clone, Copy, PartialEq, Eq, Hash)]
        pub enum Kind {
            Ty(Universe, u32),
            Int,
            Float,
            Region(Universe),
            Const(Universe),
            Placeholder(ArgSort, Universe, u32),
        }

        // What has no parts. A region's parameter is an early one; a placeholder has its universe and number, a bound variable
        // its depth and number.
        #[derive(Clone, Copy, PartialEq, Eq, Hash)]
        pub enum Leaf {
            Variable(VarSort, u32),
            RegionVariable(u32),
            Parameter(ArgSort, u32),
            LateParameter(u32),
            Placeholder(ArgSort, Universe, u32),
            Bound(ArgSort, u32, u32),
            Canonical(ArgSort, u32),
            Error(ArgSort),
            Static,
            Erased,
            Kind(Kind),
        }

        // What stands over parts. A constructor, an alias, a function (with its count of bound variables), an unevaluated constant
        // and a predicate (number, count of bound variables) stand over one list of arguments, a constant value over its type, an
        // opaque pair over an alias and its hidden type, a goal over environment and predicate, a region constraint (with its
        // visibility) over two terms, a list over its elements.
        #[derive(Clone, Copy, PartialEq, Eq, Hash)]
        pub enum Head {
            Constructor(u32),
            Alias(u32),
            Function(u32),
            Unevaluated(u32),
            Value(u64),
            Predicate(u32, u32),
            OpaquePair,
            Goal,
            Outlives(bool),
            Equal(bool),
            List(ListSort),
        }

        // An entry as it is read: a leaf, or a head over a number of parts.
        #[derive(Clone, Copy, PartialEq, Eq, Hash)]
        pub enum Node {
            Leaf(Leaf),
            Over(Head, usize),
        }

        // What a head takes at a place that it has.
        #[derive(Clone, Copy)]
        pub enum Want {
            Argument,
            Alias,
            Of(Sort),
        }

        // Which kinds of leaf occur in a term, a bit for each.
        #[derive(Clone, Copy, PartialEq, Eq)]
        pub struct Flags {
            pub bits: u16,
        }

        impl Flags {
            pub const NONE: Flags = Flags { bits: 0 };

            pub const TY_VARIABLE: Flags = Flags { bits: 1 };

            pub const INT_VARIABLE: Flags = Flags { bits: 2 };

            pub const FLOAT_VARIABLE: Flags = Flags { bits: 4 };

            pub const CONST_VARIABLE: Flags = Flags { bits: 8 };

            pub const REGION_VARIABLE: Flags = Flags { bits: 16 };

            pub const PLACEHOLDER: Flags = Flags { bits: 32 };

            pub const PARAMETER: Flags = Flags { bits: 64 };
            // a region that is neither bound, canonical nor erased
            pub const FREE_REGION: Flags = Flags { bits: 128 };

            pub const ERASED: Flags = Flags { bits: 256 };

            pub const CANONICAL: Flags = Flags { bits: 512 };

            // The flags of both.
            pub fn union(self, other: Flags) -> Flags {
                Flags {
                    bits: self.bits | other.bits,
                }
            }

            // Whether they have a flag in common.
            pub fn meets(self, other: Flags) -> bool {
                self.bits & other.bits != 0
            }
        }

        // What is found of a term once, when it is added: its height, its flags, and how many binders must stand around it for
        // none of its bound variables to leave them all.
        #[derive(Clone, Copy)]
        pub struct Facts {
            pub height: u8,
            pub flags: Flags,
            pub outer: u64,
        }

        // Why a store refuses.
        #[derive(Clone, Copy, PartialEq, Eq)]
        pub enum StoreFault {
            // 1: no entry has this handle
            NoSuch(Handle),
            // 1: at this place a part is missing, one too many, or of a sort that the head does not take there
            BadPart(usize),
            // 2: there is no room for a new term
            Full,
            // 3: the new term is too high
            TooHigh,
            // 3: the new list is too long
            TooLong,
        }

        impl StoreFault {
            // The number of the refusal.
            pub fn number(self) -> u8 {
                match self {
                    StoreFault::NoSuch(_) | StoreFault::BadPart(_) => 1,
                    StoreFault::Full => 2,
                    StoreFault::TooHigh | StoreFault::TooLong => 3,
                }
            }
        }
    }

    mod sorts {
        // The sort of each form, what lists hold, and variables by their sort.

        use crate::theory::words::{
            ArgSort, Head, Leaf, ListSort, Node, Sort, VarSort, VariableSort, Want,
        };

        impl VarSort {
            // Of what sort its variables are as arguments.
            fn argument(self) -> ArgSort {
                match self {
                    VarSort::Ty | VarSort::Int | VarSort::Float => ArgSort::Ty,
                    VarSort::Const => ArgSort::Const,
                }
            }
        }

        impl From<VarSort> for VariableSort {
            fn from(sort: VarSort) -> VariableSort {
                match sort {
                    VarSort::Ty => VariableSort::Ty,
                    VarSort::Int => VariableSort::Int,
                    VarSort::Float => VariableSort::Float,
                    VarSort::Const => VariableSort::Const,
                }
            }
        }

        impl VariableSort {
            // The variable of this sort with a number.
            pub fn leaf(self, number: u32) -> Leaf {
                match self {
                    VariableSort::Ty => Leaf::Variable(VarSort::Ty, number),
                    VariableSort::Int => Leaf::Variable(VarSort::Int, number),
                    VariableSort::Float => Leaf::Variable(VarSort::Float, number),
                    VariableSort::Region => Leaf::RegionVariable(number),
                    VariableSort::Const => Leaf::Variable(VarSort::Const, number),
                }
            }
        }

        impl Leaf {
            // The sort of the leaf.
            pub fn sort(self) -> Sort {
                match self {
                    Leaf::Variable(s, _) => Sort::Argument(s.argument()),
                    Leaf::Parameter(a, _) | Leaf::Canonical(a, _) | Leaf::Error(a) => {
                        Sort::Argument(a)
                    }
                    Leaf::Placeholder(a, _, _) | Leaf::Bound(a, _, _) => Sort::Argument(a),
                    Leaf::RegionVariable(_) | Leaf::LateParameter(_) => {
                        Sort::Argument(ArgSort::Region)
                    }
                    Leaf::Static | Leaf::Erased => Sort::Argument(ArgSort::Region),
                    Leaf::Kind(_) => Sort::Kind,
                }
            }
        }

        impl Head {
            fn sort(self) -> Sort {
                match self {
                    Head::Constructor(_) | Head::Alias(_) | Head::Function(_) => {
                        Sort::Argument(ArgSort::Ty)
                    }
                    Head::Unevaluated(_) | Head::Value(_) => Sort::Argument(ArgSort::Const),
                    Head::Predicate(_, _) => Sort::Predicate,
                    Head::OpaquePair => Sort::OpaquePair,
                    Head::Goal => Sort::Goal,
                    Head::Outlives(_) | Head::Equal(_) => Sort::Constraint,
                    Head::List(s) => Sort::List(s),
                }
            }
        }

        impl Node {
            // The sort of the entry.
            pub fn sort(self) -> Sort {
                match self {
                    Node::Leaf(leaf) => leaf.sort(),
                    Node::Over(head, _) => head.sort(),
                }
            }

            // How many parts the entry has.
            pub fn count(self) -> usize {
                match self {
                    Node::Leaf(_) => 0,
                    Node::Over(_, count) => count,
                }
            }
        }

        impl ListSort {
            // What the elements of the list are.
            pub fn element(self) -> Want {
                match self {
                    ListSort::Arguments => Want::Argument,
                    ListSort::Environment => Want::Of(Sort::Predicate),
                    ListSort::OpaquePairs => Want::Of(Sort::OpaquePair),
                    ListSort::Goals => Want::Of(Sort::Goal),
                    ListSort::Constraints => Want::Of(Sort::Constraint),
                    ListSort::Kinds => Want::Of(Sort::Kind),
                }
            }
        }
    }

    // The words that code and specifications share: sorts, kinds, leaves, heads, the faults of a store, and the limits.
    // The definitions in specs/ speak of these same types, so that no translation stands between a contract and its meaning.

    pub use limits::{
        HIGHEST, LONGEST, MOST_ENTRIES, MOST_ITEMS, MOST_LEVELS, MOST_MARKS, MOST_NAMES,
        MOST_PLACES,
    };
    pub use words::{
        ArgSort, Facts, Flags, Handle, Head, Kind, Leaf, ListSort, Node, Sort, StoreFault,
        Universe, VarSort, VariableSort, Want,
    };
}

mod hasher {
    // The hasher of the index.
    use std::hash::Hasher;

    const STEP: u64 = 0x6e04_f309_2edb_ecb3;

    const LAST: u64 = 0x39e4_a6fa_6dd7_78f3;

    pub struct WordHasher {
        state: u64,
    }

    impl Default for WordHasher {
        fn default() -> WordHasher {
            WordHasher { state: 0 }
        }
    }

    impl WordHasher {
        // Takes one word more.
        fn take(&mut self, word: u64) {
            self.state = self
                .state
                .wrapping_mul(STEP)
                .wrapping_add(word ^ (word >> 32));
        }
    }

    impl Hasher for WordHasher {
        fn finish(&self) -> u64 {
            self.state.wrapping_mul(LAST) >> 32
        }

        // Two, four and eight bytes are a number, and so one word; of all else each byte is one.
        fn write(&mut self, bytes: &[u8]) {
            if bytes.len() == 2 {
                self.take(u64::from(u16::from_le_bytes([bytes[0], bytes[1]])));
            } else if bytes.len() == 4 {
                let number = u32::from_le_bytes([bytes[0], bytes[1], bytes[2], bytes[3]]);
                self.take(u64::from(number));
            } else if bytes.len() == 8 {
                self.take(u64::from_le_bytes([
                    bytes[0], bytes[1], bytes[2], bytes[3], bytes[4], bytes[5], bytes[6], bytes[7],
                ]));
            } else {
                for byte in bytes {
                    self.take(u64::from(*byte));
                }
            }
        }
    }
}

mod forms {
    // What the forms of terms mean to the store: sorts, what a head takes, and what is found of a leaf.

    use crate::theory::{ArgSort, Facts, Flags, Head, Leaf, ListSort, Node, Sort, VarSort, Want};

    fn one_part(want: Want, place: usize) -> Option<Want> {
        if place == 0 { Some(want) } else { None }
    }

    fn two_parts(first: Want, second: Want, place: usize) -> Option<Want> {
        match place {
            0 => Some(first),
            1 => Some(second),
            _ => None,
        }
    }

    // What the head takes at the place, or none where it has no such place.
    fn wants(head: Head, place: usize) -> Option<Want> {
        let list = Want::Of(Sort::List(ListSort::Arguments));
        let ty = Want::Of(Sort::Argument(ArgSort::Ty));
        let region = Want::Of(Sort::Argument(ArgSort::Region));
        match head {
            Head::Constructor(_) | Head::Alias(_) | Head::Function(_) => one_part(list, place),
            Head::Unevaluated(_) | Head::Predicate(_, _) => one_part(list, place),
            Head::Value(_) => one_part(ty, place),
            Head::OpaquePair => two_parts(Want::Alias, ty, place),
            Head::Goal => two_parts(
                Want::Of(Sort::List(ListSort::Environment)),
                Want::Of(Sort::Predicate),
                place,
            ),
            Head::Outlives(_) => two_parts(Want::Argument, region, place),
            Head::Equal(_) => two_parts(region, region, place),
            Head::List(s) => Some(s.element()),
        }
    }

    // How many parts the head has at least.
    pub fn least_parts(head: Head) -> usize {
        match head {
            Head::Constructor(_) | Head::Alias(_) | Head::Function(_) => 1,
            Head::Unevaluated(_) | Head::Value(_) | Head::Predicate(_, _) => 1,
            Head::OpaquePair | Head::Goal | Head::Outlives(_) | Head::Equal(_) => 2,
            Head::List(_) => 0,
        }
    }

    // Whether the head takes such an entry as its part at the place.
    pub fn takes_part(head: Head, place: usize, part: Node) -> bool {
        match wants(head, place) {
            None => false,
            Some(Want::Argument) => matches!(part.sort(), Sort::Argument(_)),
            Some(Want::Alias) => matches!(part, Node::Over(Head::Alias(_), _)),
            Some(Want::Of(sort)) => sort == part.sort(),
        }
    }

    fn flags_of_variable(sort: VarSort) -> Flags {
        match sort {
            VarSort::Ty => Flags::TY_VARIABLE,
            VarSort::Int => Flags::INT_VARIABLE,
            VarSort::Float => Flags::FLOAT_VARIABLE,
            VarSort::Const => Flags::CONST_VARIABLE,
        }
    }

    // The flags, and that it is a free region where it is a region.
    fn free_if(sort: ArgSort, flags: Flags) -> Flags {
        match sort {
            ArgSort::Region => flags.union(Flags::FREE_REGION),
            _ => flags,
        }
    }

    fn flags_of_leaf(leaf: Leaf) -> Flags {
        match leaf {
            Leaf::Variable(s, _) => flags_of_variable(s),
            Leaf::RegionVariable(_) => Flags::REGION_VARIABLE.union(Flags::FREE_REGION),
            Leaf::Parameter(a, _) => free_if(a, Flags::PARAMETER),
            Leaf::LateParameter(_) => Flags::PARAMETER.union(Flags::FREE_REGION),
            Leaf::Placeholder(a, _, _) => free_if(a, Flags::PLACEHOLDER),
            Leaf::Error(a) => free_if(a, Flags::NONE),
            Leaf::Canonical(_, _) => Flags::CANONICAL,
            Leaf::Static => Flags::FREE_REGION,
            Leaf::Erased => Flags::ERASED,
            Leaf::Bound(_, _, _) | Leaf::Kind(_) => Flags::NONE,
        }
    }

    fn reach_of(leaf: Leaf) -> u64 {
        match leaf {
            Leaf::Bound(_, depth, _) => u64::from(depth) + 1,
            _ => 0,
        }
    }

    // What is found of no term at all.
    pub const NO_FACTS: Facts = Facts {
        height: 0,
        flags: Flags::NONE,
        outer: 0,
    };

    // What is found of a leaf.
    pub fn facts_of_leaf(x: Leaf) -> Facts {
        Facts {
            height: 1,
            flags: flags_of_leaf(x),
            outer: reach_of(x),
        }
    }

    // How much higher the head stands than its parts.
    pub fn weight_of(head: Head) -> u8 {
        match head {
            Head::List(_) => 0,
            _ => 1,
        }
    }

    // How many binders the head opens over its parts.
    pub fn binders_of(head: Head) -> u64 {
        match head {
            Head::Function(_) | Head::Predicate(_, _) => 1,
            _ => 0,
        }
    }

    // What is found of two terms in a row.
    pub fn join_facts(a: Facts, b: Facts) -> Facts {
        Facts {
            height: a.height.max(b.height),
            flags: a.flags.union(b.flags),
            outer: a.outer.max(b.outer),
        }
    }

    // What is found of a head over a row.
    pub fn top_facts(head: Head, row: Facts) -> Facts {
        Facts {
            height: weight_of(head) + row.height,
            flags: row.flags,
            outer: row.outer.saturating_sub(binders_of(head)),
        }
    }
}

mod hash {
    // The hash of an entry, by which the store's index finds it. No contract above the store mentions it.

    use crate::hasher::WordHasher;
    use crate::theory::{Handle, Node};
    use std::hash::{Hash, Hasher};

    // The hash of an entry with these parts.
    pub fn hash_of(node: Node, parts: &[Handle]) -> u32 {
        let mut state = WordHasher::default();
        node.hash(&mut state);
        // how many they are stands in the node
        for part in parts {
            part.hash(&mut state);
        }
        (state.finish() & 0xffff_ffff) as u32
    }
}

mod memory {
    mod entry {
        // An entry.
        use crate::forms::NO_FACTS;
        use crate::theory::{Facts, Leaf, Node, VarSort};

        // What a store keeps of a term. A caller lends a slice of these, all vacant or left from an earlier store.
        #[derive(Clone, Copy)]
        pub struct Entry {
            pub(crate) node: Node,
            // where its parts stand in the items
            pub(crate) first: u32,
            pub(crate) hash: u32,
            // one more than the entry before it in its bucket, or 0
            pub(crate) next: u32,
            pub(crate) facts: Facts,
        }

        impl Entry {
            pub const VACANT: Entry = Entry {
                node: Node::Leaf(Leaf::Variable(VarSort::Ty, 0)),
                first: 0,
                hash: 0,
                next: 0,
                facts: NO_FACTS,
            };
        }
    }

    // One entry of a store's memory, and how the hash index finds one.

    use crate::theory::{Handle, Node};

    pub use entry::Entry;

    // Whether the entry is of this form, over these parts.
    fn is_entry(e: &Entry, items: &[Handle], node: Node, parts: &[Handle]) -> bool {
        let first = e.first as usize;
        e.node == node && &items[first..first + e.node.count()] == parts
    }

    // The entry of this form over these parts, by the chain of its hash's bucket.
    pub fn seek(
        entries: &[Entry],
        items: &[Handle],
        buckets: &[u32],
        hash: u32,
        node: Node,
        parts: &[Handle],
    ) -> Option<Handle> {
        let mut at = buckets[hash as usize % buckets.len()];
        while at > 0 {
            let e = &entries[(at - 1) as usize];
            if e.hash == hash && is_entry(e, items, node, parts) {
                return Some(at - 1);
            }
            at = e.next;
        }
        None
    }
}

mod store {
    mod adds {
        // The calls that add.

        use crate::forms::{
            NO_FACTS, facts_of_leaf, join_facts, least_parts, takes_part, top_facts,
        };
        use crate::hash::hash_of;
        use crate::memory::{Entry, seek};
        use crate::store::Store;
        use crate::theory::{Facts, HIGHEST, Handle, Head, LONGEST, Leaf, Node, StoreFault};

        impl Store<'_> {
            // The handle of a form over parts.
            fn locate(&self, hash: u32, node: Node, parts: &[Handle]) -> Option<Handle> {
                if self.buckets.len() == 0 {
                    return None;
                }
                seek(
                    &self.entries[..self.len],
                    &self.items[..self.used],
                    self.buckets,
                    hash,
                    node,
                    parts,
                )
            }

            // Whether there is an entry for one more term, and items for so many parts.
            fn has_room(&self, parts: usize) -> bool {
                self.len < self.limit && parts <= self.room - self.used
            }

            // One more entry, at the front of its bucket's chain.
            fn push(&mut self, node: Node, parts: &[Handle], hash: u32, facts: Facts) -> Handle {
                let len = self.len;
                let used = self.used;
                let b = hash as usize % self.buckets.len();
                self.items[used..used + parts.len()].copy_from_slice(parts);
                self.entries[len] = Entry {
                    node,
                    first: used as u32,
                    hash,
                    next: self.buckets[b],
                    facts,
                };
                self.buckets[b] = len as u32 + 1;
                self.len = len + 1;
                self.used = used + parts.len();
                len as u32
            }
        }

        impl Store<'_> {
            // The handle of a form over parts, which is added where it is not held yet.
            fn intern(
                &mut self,
                node: Node,
                parts: &[Handle],
                facts: Facts,
            ) -> Result<Handle, StoreFault> {
                let hash = hash_of(node, parts);
                if let Some(term) = self.locate(hash, node, parts) {
                    return Ok(term);
                }
                if !self.has_room(parts.len()) {
                    return Err(StoreFault::Full);
                }
                if facts.height > HIGHEST {
                    return Err(StoreFault::TooHigh);
                }
                if parts.len() > LONGEST {
                    return Err(StoreFault::TooLong);
                }
                Ok(self.push(node, parts, hash, facts))
            }

            // Adds a leaf: refuses 2 where it is not held and there is no room.
            pub fn add_leaf(&mut self, leaf: Leaf) -> Result<Handle, StoreFault> {
                self.intern(Node::Leaf(leaf), &[], facts_of_leaf(leaf))
            }

            // What is found of a head over parts: refuses 1 at the first handle that names nothing or part that does not fit.
            fn survey(&self, head: Head, parts: &[Handle]) -> Result<Facts, StoreFault> {
                let mut all = NO_FACTS;
                for (k, part) in parts.iter().enumerate() {
                    let e = self.entry(*part)?;
                    if !takes_part(head, k, e.node) {
                        return Err(StoreFault::BadPart(k));
                    }
                    all = join_facts(all, e.facts);
                }
                if parts.len() < least_parts(head) {
                    return Err(StoreFault::BadPart(parts.len()));
                }
                Ok(top_facts(head, all))
            }

            // Adds a head over the terms at handles: refuses 1, then finds it where it is held, then refuses 2, then 3.
            pub fn add(&mut self, head: Head, parts: &[Handle]) -> Result<Handle, StoreFault> {
                let facts = self.survey(head, parts)?;
                self.intern(Node::Over(head, parts.len()), parts, facts)
            }
        }
    }

    mod calls {
        // The calls that read, and cutting back.

        use crate::memory::Entry;
        use crate::store::Store;
        use crate::theory::{Facts, Handle, Node, Sort, StoreFault};

        // The entry at a handle.
        fn entry_at(entries: &[Entry], term: Handle) -> Result<Entry, StoreFault> {
            entries
                .get(term as usize)
                .copied()
                .ok_or(StoreFault::NoSuch(term))
        }

        impl Store<'_> {
            // The entry at a handle, by what it says of its term.
            pub(crate) fn entry(&self, term: Handle) -> Result<Entry, StoreFault> {
                entry_at(&self.entries[..self.len], term)
            }

            // The form of a term, with the number of its parts.
            pub fn get(&self, term: Handle) -> Result<Node, StoreFault> {
                Ok(self.entry(term)?.node)
            }

            // The parts of a term, in order: the elements of a list, the argument list of a constructor.
            pub fn parts(&self, term: Handle) -> Result<&[Handle], StoreFault> {
                let e = entry_at(&self.entries[..self.len], term)?;
                let first = e.first as usize;
                Ok(&self.items[first..first + e.node.count()])
            }

            // The part of a term at a place.
            pub fn part(&self, term: Handle, place: usize) -> Result<Handle, StoreFault> {
                let parts = self.parts(term)?;
                parts.get(place).copied().ok_or(StoreFault::BadPart(place))
            }

            // The height of a term, its flags and its outermost bound depth.
            pub fn facts(&self, term: Handle) -> Result<Facts, StoreFault> {
                Ok(self.entry(term)?.facts)
            }

            // The sort of a term.
            pub fn sort(&self, term: Handle) -> Result<Sort, StoreFault> {
                Ok(self.entry(term)?.node.sort())
            }
        }

        impl Store<'_> {
            // Whether two handles name equal terms. Equal terms have one handle, so this is whether they are one.
            pub fn is_same(&self, a: Handle, b: Handle) -> Result<bool, StoreFault> {
                self.entry(a)?;
                self.entry(b)?;
                Ok(a == b)
            }
        }
    }

    mod cuts {
        // Cutting a store back, for calls that change all or nothing.

        use crate::store::Store;

        impl Store<'_> {
            // Takes the newest term away: its bucket's chain begins with the one before it again.
            fn shorten(&mut self) {
                let last = self.len - 1;
                let e = self.entries[last];
                let b = e.hash as usize % self.buckets.len();
                self.buckets[b] = e.next;
                self.len = last;
                self.used = e.first as usize;
            }

            // Keeps the first `len` terms; a store that is shorter stays as it is.
            pub fn cut(&mut self, len: usize) {
                while self.len() > len {
                    self.shorten();
                }
            }
        }
    }

    mod makes {
        // A store is made over memory that the caller lends.

        use crate::memory::Entry;
        use crate::store::Store;
        use crate::theory::{Handle, MOST_ENTRIES, MOST_ITEMS};

        // How many entries may be used: none without a bucket to find them by.
        fn limit_of(entries: usize, buckets: usize) -> usize {
            if buckets == 0 {
                0
            } else {
                entries.min(MOST_ENTRIES)
            }
        }

        impl<'a> Store<'a> {
            // A store that holds nothing. What the slices held before does not matter.
            pub fn new(
                entries: &'a mut [Entry],
                buckets: &'a mut [u32],
                items: &'a mut [Handle],
            ) -> Store<'a> {
                for b in buckets.iter_mut() {
                    *b = 0;
                }
                let limit = limit_of(entries.len(), buckets.len());
                let room = items.len().min(MOST_ITEMS);
                Store {
                    entries,
                    buckets,
                    items,
                    len: 0,
                    used: 0,
                    limit,
                    room,
                }
            }
        }

        impl Store<'_> {
            // How many terms are held.
            pub fn len(&self) -> usize {
                self.len
            }
        }
    }

    // A store of terms in memory that the caller lends. It never allocates.

    use crate::memory::Entry;
    use crate::theory::Handle;

    // The memory is lent, as slices with counts of what is in use: a store never allocates, so it holds no Vec or Box.

    pub struct Store<'a> {
        entries: &'a mut [Entry],
        buckets: &'a mut [u32],
        items: &'a mut [Handle],
        // how many entries and items are in use, and how many may be
        len: usize,
        used: usize,
        limit: usize,
        room: usize,
    }
}

use crate::theory::ArgSort;
use crate::theory::Handle;
use crate::theory::Head;
use crate::theory::Leaf;
use crate::theory::ListSort;
use crate::theory::StoreFault;
use crate::theory::VarSort;
use memory::Entry;
use store::Store;

const COUNT: u32 = 60_000;
const ROUNDS: u32 = 20;

// The handles that the next terms are built over.
#[derive(Clone, Copy)]
struct Last {
    ty: Handle,
    region: Handle,
    list: Handle,
}

fn add_one(s: &mut Store, last: Last, i: u32) -> Result<Handle, StoreFault> {
    match i % 6 {
        0 => s.add_leaf(Leaf::Variable(VarSort::Ty, i)),
        1 => s.add_leaf(Leaf::Placeholder(ArgSort::Region, 3, i)),
        2 => s.add(Head::List(ListSort::Arguments), &[last.ty, last.region]),
        3 => s.add(Head::Constructor(i), &[last.list]),
        4 => s.add(
            Head::Value(u64::from(i).wrapping_mul(0x1234_5678_9ABC)),
            &[last.ty],
        ),
        _ => s.add_leaf(Leaf::Bound(ArgSort::Const, i % 64, i)),
    }
}

fn follow(last: Last, i: u32, term: Handle) -> Last {
    let mut next = last;
    match i % 6 {
        0 | 3 => next.ty = term,
        1 => next.region = term,
        2 => next.list = term,
        _ => {}
    }
    next
}

// One pass over the terms, from the first handles on: the sum of their handles.
fn pass(s: &mut Store, first: Last) -> u64 {
    let mut last = first;
    let mut sum = 0u64;
    for i in 0..COUNT {
        match add_one(s, last, i) {
            Ok(term) => {
                last = follow(last, i, term);
                sum = sum.wrapping_add(u64::from(term));
            }
            Err(_) => sum = sum.wrapping_add(1_000_000_000),
        }
    }
    sum
}

fn main() {
    let mut entries = vec![Entry::VACANT; 65_535];
    let mut buckets = vec![0u32; 65_536];
    let mut items = vec![0u32; 262_144];
    let mut s = Store::new(&mut entries, &mut buckets, &mut items);
    let zero = Last {
        ty: 0,
        region: 1,
        list: 2,
    };
    let added = pass(&mut s, zero);
    let len = s.len();
    let mut found = 0u64;
    for _ in 0..ROUNDS {
        found = found.wrapping_add(pass(&mut s, zero));
    }
    s.cut(1_000);
    let cut = s.len();
    let again = pass(&mut s, zero);
    println!("{added} {len} {found} {cut} {again}");
}
