//! One call on settings, compared: every field of the answer, every octet of the file or of the buffer.

use paper::settings::number;

use crate::answer::{Settings, Written};
use crate::check::{hex, require, same_answer, same_octets, Check, Step, Stop};
use crate::codec::Paper;
use crate::lent::Lent;
use crate::settings::SettingsFile;
use crate::tally::Function;

impl Check<'_> {
    /// `saratoga_read_settings`.
    pub fn read_settings(&mut self, file: &[u8], known: u64) -> Result<Settings, Stop> {
        self.count()?;
        let lent = Lent::copy(file, &mut self.rng);
        let got = self.settings.read_settings(lent.octets(), known);
        let want = Paper.read_settings(file, known);
        let context = || format!("  known {known}, file of {} octets: {}", file.len(), hex(file));
        same_answer(Function::ReadSettings, &got, &want, context)?;
        require(lent.octets() == file, || format!("saratoga_read_settings wrote into the file\n{}", context()))?;
        self.tally.add(Function::ReadSettings, got.number);
        Ok(got)
    }

    /// `saratoga_write_settings` into a buffer of `out_len` octets; with the octets written.
    pub fn write_settings(&mut self, settings: &Settings, out_len: usize) -> Result<(Written, Vec<u8>), Stop> {
        self.count()?;
        let mut out = Lent::random(out_len, &mut self.rng);
        let mut want_out = out.clone();
        let got = self.settings.write_settings(settings, out.octets_mut());
        let want = Paper.write_settings(settings, want_out.octets_mut());
        let context = || format!("  {settings:?}, buffer of {out_len} octets");
        same_answer(Function::WriteSettings, &got, &want, context)?;
        same_octets(Function::WriteSettings, "out", &out, &want_out, context)?;
        self.tally.add(Function::WriteSettings, got.number);
        Ok((got, out.octets()[..got.size as usize].to_vec()))
    }

    /// Reads a file as readers do that know no version, 1, 2 and more. Readers that know the version agree (R18.10), and what
    /// was read is written back octet for octet (R18.12).
    pub fn read_by_all(&mut self, file: &[u8]) -> Step {
        let told = self.read_settings(file, 2)?;
        let version = number(file).map_or(u64::MAX, |(version, _)| version);
        for known in [0, 1, 3, u64::MAX] {
            let other = self.read_settings(file, known)?;
            let same = version <= known.min(2);
            require(!same || other == told, || format!("readers differ: {told:?}, {other:?}, known {known}"))?;
        }
        if told.number == 0 {
            let (written, octets) = self.write_settings(&told, file.len())?;
            require(written.number == 0 && octets == file, || format!("{told:?}: {} is {}", hex(file), hex(&octets)))?;
        }
        Ok(())
    }
}
