//! Areas that are long enough, and what forward map and the change-over leave in them.

use kamfelu::{CONTENTS_AREA, COVER_AREA, LOADER_AREA, SCRATCH};

pub struct Areas {
    pub cover: Vec<u8>,
    pub scratch: Vec<u8>,
    pub loader: Vec<u8>,
    pub contents: Vec<u8>,
}

impl Default for Areas {
    /// Cover area and contents area are full of 7.
    fn default() -> Areas {
        Areas {
            cover: vec![7; COVER_AREA],
            scratch: vec![9; SCRATCH],
            loader: vec![5; LOADER_AREA],
            contents: vec![7; CONTENTS_AREA],
        }
    }
}

impl Areas {
    pub fn forward(&mut self, net: &[u8], k: u32, target: u32) -> Result<usize, u8> {
        let (loader, contents) = (&mut self.loader, &mut self.contents);
        let (cover, scratch) = (&mut self.cover, &mut self.scratch);
        kamfelu::map_forward(net, k, target, cover, scratch, loader, contents)
    }

    pub fn change_over(
        &mut self,
        net: &[u8],
        k: u32,
        target: u32,
        pairs: &[u8],
    ) -> Result<usize, u8> {
        let (loader, contents) = (&mut self.loader, &mut self.contents);
        let (cover, scratch) = (&mut self.cover, &mut self.scratch);
        kamfelu::change_over(net, k, target, pairs, cover, scratch, loader, contents)
    }

    /// The contents written to new areas: they end where the 7 begin.
    pub fn written(&self) -> &[u8] {
        let end = self.contents.iter().position(|&byte| byte == 7);
        let (written, behind) = self.contents.split_at(end.expect("bytes behind"));
        assert!(behind.iter().all(|&byte| byte == 7));
        written
    }
}
