//! The Rust's answers in document 01's numbers: what the judge and the maker of the list that is replayed both need.

use spdr::{ClockTimingParam, DeviceType, Finding, IdentityAndBase, ModuleType, PackageType, TimingOrder};

/// What identity reads, by document 02's request 2026-01: ascending, as the Rust reads it.
const IDENTITY_READS: [u32; 10] = [0, 1, 2, 3, 4, 5, 6, 7, 234, 235];

/// The first of them that an image of this length lacks.
pub fn identity_lacks(len: usize) -> Option<u32> {
    IDENTITY_READS.into_iter().find(|&offset| offset as usize >= len)
}

/// The field whose code is refused by 2, with the byte; every other is refused by 3, with the field's number.
pub const DEVICE_TYPE: &str = "DRAM device type";

pub fn field_number(field: &str) -> Option<u32> {
    Some(match field {
        "SPD device size" => 1,
        "module type" => 2,
        "SDRAM density per die" => 3,
        "SDRAM package type" => 4,
        "SDRAM I/O width" => 5,
        "bank groups" => 6,
        "banks per bank group" => 7,
        "primary bus width" => 8,
        "channels per DIMM" => 9,
        _ => return None,
    })
}

pub fn identity_numbers(d: &IdentityAndBase) -> [u32; 18] {
    [
        d.spd_bytes_total.into(),
        d.spd_revision.major.into(),
        d.spd_revision.minor.into(),
        device_code(d.device_type),
        module_code(d.module_type),
        d.hybrid.into(),
        d.density_per_die.gigabits().into(),
        package_code(d.package_type),
        d.die_count.into(),
        d.row_address_bits.into(),
        d.column_address_bits.into(),
        d.io_width.bits().into(),
        d.bank_groups.count().into(),
        d.banks_per_bank_group.count().into(),
        d.package_ranks_per_channel.into(),
        d.rank_mix_asymmetric.into(),
        d.channels_per_dimm.into(),
        d.primary_bus_width_bits.into(),
    ]
}

fn device_code(device: DeviceType) -> u32 {
    match device {
        DeviceType::Ddr3 => 0x0B,
        DeviceType::Ddr4 => 0x0C,
        DeviceType::Ddr5 => 0x12,
        DeviceType::Lpddr5 => 0x13,
    }
}

fn module_code(module: ModuleType) -> u32 {
    match module {
        ModuleType::Rdimm => 1,
        ModuleType::Udimm => 2,
        ModuleType::Sodimm => 3,
        ModuleType::Lrdimm => 4,
        ModuleType::Cudimm => 5,
        ModuleType::Csoudimm => 6,
        ModuleType::Mrdimm => 7,
        ModuleType::Camm2 => 8,
        ModuleType::Ddimm => 10,
        ModuleType::SolderDown => 11,
    }
}

fn package_code(package: PackageType) -> u32 {
    match package {
        PackageType::Monolithic => 1,
        PackageType::DualDie => 2,
        PackageType::ThreeDs => 3,
    }
}

/// A finding in document 01's report form: code, sub, three numbers.
pub type Row = [u32; 5];

/// The row of a finding; code 0 for one that document 01 does not have.
pub fn row(f: &Finding) -> Row {
    match *f {
        Finding::NonIntegerDeviceCount { bus_width_bits, io_width_bits } => {
            [1, 0, bus_width_bits.into(), io_width_bits.into(), 0]
        }
        Finding::TrcIdentityMismatch { trc_ps, tras_ps, trp_ps } => [2, 0, trc_ps, tras_ps, trp_ps],
        Finding::TimingOrderingViolation { relation, larger_ps, smaller_ps } => {
            let sub = match relation {
                TimingOrder::RasGeRcd => 1,
                TimingOrder::RcGeRas => 2,
            };
            [3, sub, larger_ps, smaller_ps, 0]
        }
        Finding::NonIntegerCasLatency { taa_ps, tck_ps } => [4, 0, taa_ps, tck_ps, 0],
        Finding::CasLatencyNotSupported { cas_latency } => [5, 0, cas_latency.into(), 0, 0],
        Finding::NonIntegerClockTiming { param, value_ps, tck_ps } => {
            let sub = match param {
                ClockTimingParam::Trcd => 1,
                ClockTimingParam::Trp => 2,
            };
            [6, sub, value_ps, tck_ps, 0]
        }
        Finding::NonStandardDataRate { data_rate_mt_s } => [7, 0, data_rate_mt_s, 0, 0],
        Finding::ReservedBytesNonZero { offset, value } => [8, 0, offset as u32, value.into(), 0],
        Finding::PackageDieCountMismatch { package_type, die_count } => [9, package_code(package_type), die_count.into(), 0, 0],
        _ => [0; 5],
    }
}
