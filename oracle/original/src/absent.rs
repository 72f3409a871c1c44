//! What stands in for the driver where the original is absent: nothing can be opened.

use crate::{Key, Outcome, Read};
use std::{convert::Infallible, path::Path};

pub enum Query<'a> {
    Check(&'a Key),
    Fetch,
    NoKey,
}

pub struct Table(Infallible);

pub struct Plan<'a>(Infallible, std::marker::PhantomData<&'a ()>);

pub struct Planned(Infallible);

pub type Entry = (u64, Vec<u8>);

type Answer<T> = std::result::Result<T, Infallible>;

impl Table {
    pub fn open(_: &Path, _: &[u8], _: Option<u16>, _: bool) -> Outcome<Table> {
        Outcome::Error("the original is absent".into())
    }

    pub fn open_missing(_: &Path, _: Option<u16>, _: bool) -> Outcome<Table> {
        Outcome::Error("the original is absent".into())
    }

    pub fn commit<T>(&mut self, _: impl FnOnce(&mut Plan) -> Answer<T>) -> Outcome<T> {
        match self.0 {}
    }

    pub fn read(&self, _: u64, _: Query) -> Outcome<Option<Read>> {
        match self.0 {}
    }

    pub fn size(&self, _: u64, _: Query) -> Outcome<Option<(u32, bool)>> {
        match self.0 {}
    }

    pub fn free_count(&self) -> Outcome<u64> {
        match self.0 {}
    }

    pub fn bytes(&self) -> &[u8] {
        match self.0 {}
    }

    pub fn file(&self) -> Vec<u8> {
        match self.0 {}
    }

    pub fn file_len(&self) -> u64 {
        match self.0 {}
    }

    pub fn unlimited() {}

    pub fn plan<T>(&self, _: impl FnOnce(&mut Plan) -> Answer<T>) -> Answer<(T, Planned)> {
        match self.0 {}
    }

    pub fn enact(&self, _: &Planned) -> Answer<()> {
        match self.0 {}
    }

    pub fn query(&self, _: u64, _: &Key) -> Answer<Option<(Vec<u8>, bool, u32)>> {
        match self.0 {}
    }

    pub fn restore(&mut self, _: usize, _: &[u8]) {
        match self.0 {}
    }

    pub fn log_alone(&self, _: Vec<Entry>) {
        match self.0 {}
    }
}

impl Planned {
    pub fn entries(&self, _: &Table) -> Vec<Entry> {
        match self.0 {}
    }
}

impl Plan<'_> {
    pub fn insert(&mut self, _: Option<&Key>, _: &[u8], _: bool) -> Answer<u64> {
        match self.0 {}
    }

    pub fn replace(&mut self, _: u64, _: Option<&Key>, _: &[u8], _: bool) -> Answer<()> {
        match self.0 {}
    }

    pub fn remove(&mut self, _: u64) -> Answer<()> {
        match self.0 {}
    }

    pub fn change(&mut self, _: u64, _: i32) -> Answer<bool> {
        match self.0 {}
    }

    pub fn free_count(&mut self) -> Answer<u64> {
        match self.0 {}
    }
}
