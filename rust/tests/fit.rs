//! Exact first fit beside a plain model: random calls of each kind, bad arguments among them, on
//! machines of dimension 0 to 12 and of dimension 20, in memory of their own and of the caller.

use cubejobs::fit::{image_bytes, FirstFit, FitError, Memory, MAX_DIM};
use cubejobs::Region;
use std::collections::BTreeMap;
use std::sync::Mutex;
use std::thread;

/// A plain model: which processors are held, and the dimension of the block that begins at each.
struct Model {
    dim: u32,
    held: Vec<bool>,
    blocks: BTreeMap<u64, u32>,
}

type Answer = Result<Region, FitError>;

impl Model {
    fn new(dim: u32) -> Self {
        Model { dim, held: vec![false; 1 << dim], blocks: BTreeMap::new() }
    }

    /// Returns an aligned block, if there is one.
    fn block(&self, base: u64, k: u32) -> Answer {
        if k > self.dim {
            return Err(FitError::BadDimension);
        }
        if base % (1 << k) != 0 || base >= 1 << self.dim {
            return Err(FitError::BadBase);
        }
        Ok(Region { base, dim: k })
    }

    fn whole(&self, Region { base, dim }: Region) -> Answer {
        if dim == 0 {
            return Err(FitError::BadDimension);
        }
        self.block(base, dim)
    }

    fn is_free(&self, block: Region) -> bool {
        self.block(block.base, block.dim).is_ok_and(|it| !self.places(it).contains(&true))
    }

    fn places(&self, block: Region) -> &[bool] {
        &self.held[block.base as usize..][..1 << block.dim]
    }

    fn is_held(&self, block: Region) -> bool {
        self.blocks.get(&block.base) == Some(&block.dim)
    }

    fn put(&mut self, block: Region, is_held: bool) {
        self.held[block.base as usize..][..1 << block.dim].fill(is_held);
        match is_held {
            true => self.blocks.insert(block.base, block.dim),
            false => self.blocks.remove(&block.base),
        };
    }

    fn bases(&self, k: u32) -> impl Iterator<Item = Region> {
        (0..1_u64 << self.dim).step_by(1 << k).map(move |base| Region { base, dim: k })
    }

    fn first(&self, k: u32) -> Answer {
        self.block(0, k)?;
        self.bases(k).find(|it| self.is_free(*it)).ok_or(FitError::NoRoom)
    }

    fn first_apart(&self, k: u32, avoid: Region) -> Answer {
        self.block(0, k)?;
        self.block(avoid.base, avoid.dim)?;
        self.bases(k).find(|it| !it.overlaps(avoid) && self.is_free(*it)).ok_or(FitError::NoRoom)
    }

    fn take(&mut self, k: u32) -> Answer {
        let block = self.first(k)?;
        self.put(block, true);
        Ok(block)
    }

    fn take_at(&mut self, base: u64, k: u32) -> Answer {
        let block = self.block(base, k)?;
        if !self.is_free(block) {
            return Err(FitError::Taken);
        }
        self.put(block, true);
        Ok(block)
    }

    fn release(&mut self, block: Region) -> Result<(), FitError> {
        self.block(block.base, block.dim)?;
        if !self.is_held(block) {
            return Err(FitError::NothingHeld);
        }
        self.put(block, false);
        Ok(())
    }

    fn split(&mut self, block: Region) -> Result<(Region, Region), FitError> {
        if !self.is_held(self.whole(block)?) {
            return Err(FitError::NothingHeld);
        }
        let (lower, upper) = block.halves().unwrap();
        self.blocks.extend([(lower.base, lower.dim), (upper.base, upper.dim)]);
        Ok((lower, upper))
    }

    fn join(&mut self, block: Region) -> Result<(), FitError> {
        let (lower, upper) = self.whole(block)?.halves().unwrap();
        if !self.is_held(lower) || !self.is_held(upper) {
            return Err(FitError::NotHalves);
        }
        self.blocks.remove(&upper.base);
        self.blocks.insert(block.base, block.dim);
        Ok(())
    }

    fn block_with(&self, processor: u64) -> Answer {
        self.block(processor, 0)?;
        let mut blocks = self.blocks.iter().map(|(base, dim)| Region { base: *base, dim: *dim });
        blocks.find(|it| it.contains(processor)).ok_or(FitError::NothingHeld)
    }

    fn free_blocks(&self, k: u32) -> u64 {
        if k > self.dim {
            return 0;
        }
        self.bases(k).filter(|it| self.is_free(*it)).count() as u64
    }

    fn largest(&self) -> Option<Region> {
        (0..=self.dim).rev().find_map(|k| self.first(k).ok())
    }
}

/// A generator of random numbers: Marsaglia's xorshift.
struct Random(u64);

impl Random {
    fn below(&mut self, bound: u64) -> u64 {
        self.0 ^= self.0 << 13;
        self.0 ^= self.0 >> 7;
        self.0 ^= self.0 << 17;
        self.0 % bound
    }

    /// Returns a block that is held, one whose halves may be, or any two numbers.
    fn block(&mut self, model: &Model) -> Region {
        // Small blocks most of the time, and sometimes one that is larger than the machine.
        let most = if self.below(4) == 0 { model.dim + 2 } else { model.dim / 2 + 1 };
        let dim = self.below(u64::from(most)) as u32;
        let base = self.below((1 << model.dim) + 2) >> (dim * self.below(8).min(1) as u32) << dim;
        match (model.block_with(base), self.below(4)) {
            (Ok(held), 0..=1) => held,
            (Ok(Region { base, dim }), 2) => Region { base: base >> (dim + 1) << (dim + 1), dim: dim + 1 },
            _ => Region { base, dim },
        }
    }
}

fn call_once<M: Memory>(machine: &mut FirstFit<M>, model: &mut Model, random: &mut Random) {
    let (block, avoid) = (random.block(model), random.block(model));
    let Region { base, dim: k } = block;
    match random.below(16) {
        0 => assert_eq!(machine.free_blocks(k), model.free_blocks(k)),
        1 => assert_eq!(machine.largest(), model.largest()),
        2 => assert_eq!(machine.is_free(block), model.is_free(block)),
        3 => assert_eq!(machine.first(k), model.first(k)),
        4 => assert_eq!(machine.first_apart(k, avoid), model.first_apart(k, avoid)),
        5 => assert_eq!(machine.block_with(base), model.block_with(base)),
        6..=7 => assert_eq!(machine.split(block), model.split(block)),
        8..=9 => assert_eq!(machine.join(block), model.join(block)),
        10..=11 => assert_eq!(machine.release(block), model.release(block)),
        12 => assert_eq!(machine.take_at(base, k), model.take_at(base, k)),
        _ => assert_eq!(machine.take(k), model.take(k)),
    }
}

fn compare<M: Memory>(machine: &FirstFit<M>, model: &Model) {
    let occupancy = machine.occupancy();
    let counts: Vec<u64> = (0..=MAX_DIM).map(|k| model.free_blocks(k)).collect();
    assert_eq!(occupancy.free[..], counts);
    assert_eq!(occupancy.held, model.held.iter().filter(|it| **it).count() as u64);
    assert_eq!(occupancy.largest, model.largest().map(|it| it.dim));
    assert_eq!(machine.image().len(), image_bytes(model.dim));
}

/// Makes random calls. Now and then compares the counts, and goes on with a copy.
fn run(dim: u32, calls: u32, few: u32) {
    let mut random = Random(88_172_645_463_325_252 + u64::from(dim));
    let (mut machine, mut model) = (FirstFit::new(dim).unwrap(), Model::new(dim));
    assert_eq!(machine.dim(), dim);
    for call in 0..calls {
        call_once(&mut machine, &mut model, &mut random);
        if call % few == 0 {
            compare(&machine, &model);
            machine = FirstFit::from_image(machine.clone().image(), dim).unwrap();
        }
    }
    compare(&machine, &model);
}

#[test]
fn answers_as_the_model_does() {
    (0..=8).for_each(|dim| run(dim, 20_000, 10));
    (9..=12).for_each(|dim| run(dim, 5_000, 200));
}

#[test]
fn answers_as_the_model_does_on_the_largest_machine() {
    run(MAX_DIM, 40, 20);
}

/// Memory of the caller, at a multiple of 8.
#[repr(align(8))]
struct Aligned([u8; 160]);

#[test]
fn answers_as_the_model_does_in_memory_of_the_caller() {
    let (mut memory, mut random, mut model) = (Aligned([7; 160]), Random(7), Model::new(4));
    FirstFit::open(&mut memory.0, 4).unwrap();
    for turn in 0..1000 {
        let mut machine = match turn % 2 {
            0 => FirstFit::attach(&mut memory.0, 4).unwrap(),
            _ => FirstFit::repair(&mut memory.0, 4).unwrap(),
        };
        (0..20).for_each(|_| call_once(&mut machine, &mut model, &mut random));
        compare(&machine, &model);
    }
    assert!(memory.0[image_bytes(4)..].iter().all(|it| *it == 7));
}

/// A call that makes a machine of memory, with its refusal.
type Opening = fn(&mut [u8], u32) -> Option<FitError>;

#[test]
fn refuses_bad_memory() {
    let mut memory = Aligned([7; 160]);
    let calls: [Opening; 3] = [
        |memory, dim| FirstFit::open(memory, dim).err(),
        |memory, dim| FirstFit::attach(memory, dim).err(),
        |memory, dim| FirstFit::repair(memory, dim).err(),
    ];
    for call in calls {
        for dim in [21, 64, u32::MAX] {
            assert_eq!(call(&mut memory.0, dim), Some(FitError::BadDimension));
        }
        assert_eq!(call(&mut memory.0[..127], 4), Some(FitError::BadSize));
        assert_eq!(call(&mut [], 0), Some(FitError::BadSize));
        for odd in 1..8 {
            assert_eq!(call(&mut memory.0[odd..], 3), Some(FitError::BadSize));
        }
        assert_eq!(memory.0, [7; 160]);
    }
    for call in &calls[1..] {
        assert_eq!(call(&mut memory.0, 4), Some(FitError::BadImage));
    }
    assert_eq!((image_bytes(0), image_bytes(20), image_bytes(21)), (98, 2_097_248, 0));
    assert_eq!(FirstFit::new(21).unwrap_err(), FitError::BadDimension);
    assert_eq!(FirstFit::from_image(&memory.0, 21).unwrap_err(), FitError::BadDimension);
    assert_eq!(FirstFit::from_image(&memory.0, 6).unwrap_err(), FitError::BadSize);
    assert_eq!(FirstFit::from_image(&memory.0, 4).unwrap_err(), FitError::BadImage);
}

#[test]
fn refuses_each_damaged_image() {
    let mut machine = FirstFit::new(3).unwrap();
    machine.take(0).unwrap();
    machine.take(1).unwrap();
    let image = machine.image().to_vec();
    for place in 0..image.len() {
        for value in (0..=255).filter(|it| *it != image[place]) {
            let mut damaged = image.clone();
            damaged[place] = value;
            assert_eq!(FirstFit::from_image(&damaged, 3).unwrap_err(), FitError::BadImage);
        }
    }
}

#[test]
fn repairs_what_is_derived() {
    let mut memory = Aligned([0; 160]);
    let mut machine = FirstFit::open(&mut memory.0, 4).unwrap();
    let block = machine.take_at(6, 1).unwrap();
    let sound = machine.image().to_vec();
    // Each count, and the room of each node above the block.
    memory.0[8..96].fill(9);
    for node in [1, 2, 5] {
        memory.0[96 + node] = 3;
    }
    assert_eq!(FirstFit::attach(&mut memory.0, 4).unwrap_err(), FitError::BadImage);
    let mut machine = FirstFit::repair(&mut memory.0, 4).unwrap();
    assert_eq!(machine.image(), sound);
    machine.release(block).unwrap();
    assert_eq!(machine.take(4), Ok(Region { base: 0, dim: 4 }));
}

#[test]
fn parts_and_unions_are_not_released() {
    let mut machine = FirstFit::new(3).unwrap();
    let (lower, upper) = (machine.take(1).unwrap(), machine.take(1).unwrap());
    let four = Region { base: 0, dim: 2 };
    assert_eq!(machine.release(four), Err(FitError::NothingHeld));
    assert_eq!(machine.release(Region { base: 1, dim: 0 }), Err(FitError::NothingHeld));
    machine.join(four).unwrap();
    assert_eq!(machine.release(upper), Err(FitError::NothingHeld));
    assert_eq!(machine.split(four), Ok((lower, upper)));
    machine.release(upper).unwrap();
    assert_eq!(machine.release(upper), Err(FitError::NothingHeld));
    let mut clone = machine.clone();
    assert_eq!(clone.take(1), Ok(upper));
    assert_eq!(machine.block_with(2), Err(FitError::NothingHeld));
}

#[test]
fn refuses_bad_arguments() {
    let mut machine = FirstFit::new(3).unwrap();
    machine.take_at(4, 1).unwrap();
    let before = machine.image().to_vec();
    for dim in [4, 20, 21, 64, u32::MAX] {
        let block = Region { base: u64::MAX, dim };
        assert_eq!(machine.take(dim), Err(FitError::BadDimension));
        assert_eq!(machine.take_at(u64::MAX, dim), Err(FitError::BadDimension));
        assert_eq!(machine.release(block), Err(FitError::BadDimension));
        assert_eq!(machine.split(block), Err(FitError::BadDimension));
        assert_eq!(machine.join(block), Err(FitError::BadDimension));
        assert_eq!(machine.first(dim), Err(FitError::BadDimension));
        assert_eq!(machine.first_apart(0, block), Err(FitError::BadDimension));
        assert!(!machine.is_free(block) && machine.free_blocks(dim) == 0);
    }
    for base in [1, 7, 8, 1 << 32, u64::MAX - 1, u64::MAX] {
        let block = Region { base, dim: 1 };
        assert_eq!(machine.take_at(base, 1), Err(FitError::BadBase));
        assert_eq!(machine.release(block), Err(FitError::BadBase));
        assert_eq!(machine.split(block), Err(FitError::BadBase));
        assert_eq!(machine.join(block), Err(FitError::BadBase));
        assert_eq!(machine.first_apart(0, block), Err(FitError::BadBase));
        assert!(!machine.is_free(block));
    }
    assert_eq!(machine.split(Region { base: 0, dim: 0 }), Err(FitError::BadDimension));
    assert_eq!(machine.join(Region { base: 0, dim: 0 }), Err(FitError::BadDimension));
    assert_eq!(machine.block_with(8), Err(FitError::BadBase));
    assert_eq!(machine.take_at(4, 2), Err(FitError::Taken));
    assert_eq!(machine.take(3), Err(FitError::NoRoom));
    assert_eq!(machine.image(), before);
}

#[test]
fn threads_share_it_under_a_lock() {
    let machine = Mutex::new(FirstFit::new(6).unwrap());
    thread::scope(|scope| {
        for k in 0..4 {
            let machine = &machine;
            scope.spawn(move || {
                for _ in 0..1000 {
                    // The others hold at most 14 of 64 processors, so a block of 8 is free.
                    let block = machine.lock().unwrap().take(k).unwrap();
                    thread::yield_now();
                    machine.lock().unwrap().release(block).unwrap();
                }
            });
        }
    });
    assert_eq!(machine.lock().unwrap().take(6), Ok(Region { base: 0, dim: 6 }));
}

#[test]
fn errors_as_text() {
    let texts = [
        (FitError::NoRoom, "a part of each block of this dimension is in use"),
        (FitError::BadDimension, "the dimension is too large, or the block has no halves"),
        (FitError::BadBase, "no block of this dimension begins at this processor"),
        (FitError::Taken, "a part of the block is in use"),
        (FitError::NothingHeld, "no such block is held"),
        (FitError::NotHalves, "the two halves are not both held as one block each"),
        (FitError::BadSize, "the memory is too small, or not at a multiple of 8"),
        (FitError::BadImage, "the bytes are not a sound image of this dimension"),
    ];
    texts.iter().for_each(|(error, text)| assert_eq!(error.to_string(), *text));
    assert_eq!(format!("{:?}", FirstFit::new(3).unwrap()), "FirstFit { dim: 3, .. }");
}
