//! The question as it is usually asked: a rule file of the kind that an
//! archive of sky images has, and a path of six components.

pub const PATH: &[u8] = b"site07/2026/06/14/h09/sky_0901.nc";
pub const ATTRIBUTE: &[u8] = b"fill";

const IGNORE: [&str; 14] = [
    "*.tmp",
    "/cal{}/",
    "sky_{}_*.part",
    "!keep{}.nc",
    "cam{}/**/*.png",
    "dark{}/",
    "**/quick{}/",
    "flat[0-9]{}.fits",
    "# site {}",
    "/site{}/tmp/",
    "site{}/**/irr_*.csv",
    "*.bak{}~",
    "fleet/{}/*.bin",
    "log?{}*.gz",
];

const ATTRIBUTES: [&str; 10] = [
    "*.nc fill -interp unit=wm2",
    "*.fits{} -fill -text",
    "sky_{}*.nc unit=counts interp",
    "cal{}/** !fill -interp",
    "fleet/{}/*.fits fill=dark",
    "# hours of site {}",
    "site{}/**/h0[0-3]/* -fill",
    "/site{}/2026/*/14/h09/*.nc fill=mean",
    "irr_????{}.csv text",
    "**/quick{}/*.png -text !fill",
];

/// A rule file of so many lines.
pub fn rules(forms: &[&str], lines: usize) -> Vec<u8> {
    let line = |i: usize| forms[i % forms.len()].replace("{}", &(i / forms.len()).to_string()) + "\n";
    (0..lines).map(line).collect::<String>().into_bytes()
}

pub fn ignore(lines: usize) -> Vec<u8> {
    rules(&IGNORE, lines)
}

pub fn attributes(lines: usize) -> Vec<u8> {
    rules(&ATTRIBUTES, lines)
}
