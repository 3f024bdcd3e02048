//! Why a slice is refused before any range is allowed.

/// Defines the faults once, each with the rule that it breaks.
macro_rules! faults {
    ($($fault:ident, $rule:literal;)*) => {
        #[derive(Clone, Copy, Debug, Eq, Ord, PartialEq, PartialOrd)]
        pub enum Fault {
            $(#[doc = $rule] $fault,)*
        }

        impl Fault {
            pub const ALL: &'static [Self] = &[$(Self::$fault,)*];
        }
    };
}

faults! {
    SliceBelowHeader, "The slice has the 40 bytes of a header.";
    SliceBelowTotalsize, "The slice has totalsize bytes.";
    TotalsizeBelowHeader, "totalsize is at least 40.";
    TotalsizeAboveLimit, "totalsize is at most 65,536.";
    Magic, "The magic is 0xd00dfeed.";
    Version, "version is 17 or above.";
    LastCompVersion, "last_comp_version is 17 or below.";
    ReservationsUnaligned, "off_mem_rsvmap is a multiple of 8.";
    StructureUnaligned, "off_dt_struct is a multiple of 4.";
    StructureOutside, "The structure block lies inside totalsize.";
    StringsOutside, "The strings block lies inside totalsize.";
    ReservationsUnended, "An entry of zeros, inside totalsize whole, ends the memory reservations.";
    TokenCut, "Each token, and what belongs to it, lies inside the structure block, up to an FDT_END.";
    UnknownToken, "A token is one of the five.";
    NoRoot, "There is a root before FDT_END.";
    SecondRoot, "There is one root.";
    PropertyOutside, "A property stands in a node.";
    NodeEndOutside, "FDT_END_NODE stands in a node, which it ends.";
    EndInNode, "Each node is ended by FDT_END_NODE before FDT_END.";
    PropertyAfterSubnode, "A node's properties stand before its first subnode.";
    EndBeforeBlocksEnd, "FDT_END ends where the structure block ends.";
    NodeNameUnended, "A node's name ends with a zero byte inside the structure block.";
    NodeNamePadding, "A node's name is filled up to 4 with zero bytes.";
    ValueCut, "A property's value lies inside the structure block.";
    ValuePadding, "A property's value is filled up to 4 with zero bytes.";
    PropertyNameOutside, "A property's name begins inside the strings block.";
    PropertyNameUnended, "A property's name ends with a zero byte inside the strings block.";
    AddressCellsLength, "The root's #address-cells is 4 bytes long.";
    SizeCellsLength, "The root's #size-cells is 4 bytes long.";
    RaggedReg, "A memory child's reg is a whole number of pairs, where both cell counts are 1 or 2.";
    CellCounts, "Both cell counts are 1 or 2.";
}

impl Fault {
    /// The number of the refusal.
    pub fn number(self) -> u64 {
        match self {
            Self::CellCounts => 22,
            _ => 21,
        }
    }
}
