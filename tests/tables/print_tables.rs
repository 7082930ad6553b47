// Prints the Rust's own tables in the layout of crates/tables_run: floats by their bits, whole numbers in decimal.
mod common {
    pub mod complex {
        pub type Scaler = f32;
    }
}
mod band_index_tables;
mod spec_noise_shape_quant_tables;
use band_index_tables::*;
use spec_noise_shape_quant_tables::*;

fn floats(row: &[f32]) {
    println!("{}", row.iter().map(|x| format!(" {:08x}", x.to_bits())).collect::<String>());
}

fn whole(row: &[usize]) {
    println!("{}", row.iter().map(|x| format!(" {x}")).collect::<String>());
}

// A shorter table's last limit stands to the end of 65.
fn limits(table: &[usize]) {
    let mut padded = table.to_vec();
    padded.resize(65, table[table.len() - 1]);
    whole(&padded);
}

fn main() {
    LFCB.iter().for_each(|r| floats(r));
    HFCB.iter().for_each(|r| floats(r));
    D.iter().for_each(|r| floats(r));
    floats(&SNS_VQ_REG_ADJ_GAINS);
    floats(&SNS_VQ_REG_LF_ADJ_GAINS);
    floats(&SNS_VQ_NEAR_ADJ_GAINS);
    floats(&SNS_VQ_FAR_ADJ_GAINS);
    MPVQ_OFFSETS.iter().for_each(|r| whole(r));
    for table in [&I_8000_10MS[..], &I_16000_10MS, &I_24000_10MS, &I_32000_10MS, &I_48000_10MS] {
        limits(table);
    }
    for table in [&I_8000_7P5MS[..], &I_16000_7P5MS, &I_24000_7P5MS, &I_32000_7P5MS, &I_48000_7P5MS] {
        limits(table);
    }
}
