//! The data of traffic control by their kinds, as upstream types them: a list of what each is, where the proved text has one list
//! for each kind.

use crate::default_nla::DefaultNla;
use crate::memory::{AllocError, Global};
use crate::npr_base::{EmitError, check_attribute_len, check_list, write_attribute, write_list};
use crate::npr_tc::option::TcOption as Data;
use crate::npr_tc_actions::action_option::TcActionOption as ActionData;
use crate::npr_tc_actions::*;
use crate::npr_tc_filters::*;
use crate::npr_tc_qdiscs::*;
use crate::npr_tc_values::*;
use netlink_packet_core as core;
use std::slice;

/// The number of data that are a structure: `TCA_OPTIONS`, as that of an action.
const OPTIONS: u16 = 2;

/// What the proved text calls on such data.
pub(crate) trait Listed: Sized {
    fn check(&self) -> Result<usize, EmitError>;
    fn write(&self, out: &mut [u8]) -> usize;
    fn try_clone(&self, alloc: Global) -> Result<Self, AllocError>;
}

/// The variants of one attribute each, those of a structure that stands alone, and the calls.
macro_rules! by_kind {
    ($(#[$doc:meta])* $option:ident, $list:ident, $data:ident;
        { $($(#[$about:meta])* $attribute:ident($of:ty);)* } { $($(#[$told:meta])* $value:ident($held:ty) of $stands:ident;)* }) => {
        $(#[$doc])*
        #[derive(Clone, Debug, PartialEq, Eq)]
        #[non_exhaustive]
        pub enum $option {
            $($(#[$about])* $attribute($of),)*
            $($(#[$told])* $value($held),)*
            /// An attribute of no kind.
            Other(DefaultNla),
        }

        impl core::Nla for $option {
            fn kind(&self) -> u16 {
                match self {
                    $($option::$attribute(x) => core::Nla::kind(x),)*
                    $($option::$value(_) => OPTIONS,)*
                    $option::Other(nla) => core::Nla::kind(nla),
                }
            }

            fn value_len(&self) -> usize {
                match self {
                    $($option::$attribute(x) => core::Nla::value_len(x),)*
                    $($option::$value(x) => $data::$stands(x.clone()).check().expect("it can be written"),)*
                    $option::Other(nla) => core::Nla::value_len(nla),
                }
            }

            fn emit_value(&self, buffer: &mut [u8]) {
                match self {
                    $($option::$attribute(x) => core::Nla::emit_value(x, buffer),)*
                    $($option::$value(x) => {
                        $data::$stands(x.clone()).write(buffer);
                    })*
                    $option::Other(nla) => core::Nla::emit_value(nla, buffer),
                }
            }
        }

        pub(crate) fn $list(data: $data) -> Vec<$option> {
            match data {
                $($data::$attribute(list) => list.into_iter().map($option::$attribute).collect(),)*
                $($data::$stands(value) => vec![$option::$value(value)],)*
            }
        }

        impl Listed for Vec<$option> {
            fn check(&self) -> Result<usize, EmitError> {
                let length = |option: &$option| match option {
                    $($option::$attribute(x) => check_list(slice::from_ref(x)),)*
                    $($option::$value(x) => $data::$stands(x.clone()).check(),)*
                    $option::Other(nla) => {
                        let length = crate::npr_base::Nla::check_value(nla)?;
                        check_attribute_len(nla, length)
                    }
                };
                self.iter().map(length).sum()
            }

            fn write(&self, out: &mut [u8]) -> usize {
                self.iter().fold(0, |at, option| at + match option {
                    $($option::$attribute(x) => write_list(slice::from_ref(x), &mut out[at..]),)*
                    $($option::$value(x) => $data::$stands(x.clone()).write(&mut out[at..]),)*
                    $option::Other(nla) => write_attribute(nla, &mut out[at..]),
                })
            }

            fn try_clone(&self, _alloc: Global) -> Result<Self, AllocError> {
                Ok(self.clone())
            }
        }
    };
}

by_kind! {
    /// What is said of a queueing discipline, a class or a filter, by its kind.
    TcOption, list, Data;
    {
    /// Of `fq_codel`.
    FqCodel(TcQdiscFqCodelOption);
    /// Of `ingress`.
    Ingress(TcQdiscIngressOption);
    /// Of `clsact`.
    Clsact(TcQdiscIngressOption);
    /// Of the filter `u32`.
    U32(TcFilterU32Option);
    /// Of the filter `flower`.
    Flower(TcFilterFlowerOption);
    /// Of the filter `matchall`.
    MatchAll(TcFilterMatchAllOption);
    /// Of `htb`.
    Htb(TcQdiscHtbOption);
    /// Of `tbf`.
    Tbf(TcQdiscTbfOption);
    /// Of `red`.
    Red(TcQdiscRedOption);
    /// Of `fq`.
    Fq(TcQdiscFqOption);
    /// Of the filter `fw`.
    Fw(TcFilterFwOption);
    /// Of the filter `bpf`.
    Bpf(TcFilterBpfOption);
    /// Of `cake`.
    Cake(TcQdiscCakeOption);
    /// Of the filter `basic`.
    Basic(TcFilterBasicOption);
    }
    {
    /// Of `netem`.
    Netem(TcNetem) of Netem;
    /// Of `prio` and `pfifo_fast`.
    Prio(TcPrioQopt) of Prio;
    /// Of `pfifo`, `bfifo` and `pfifo_head_drop`.
    Fifo(TcFifoQopt) of Fifo;
    /// Of `sfq`.
    Sfq(TcSfqQopt) of Sfq;
    }
}

by_kind! {
    /// What is said of an action, by its kind.
    TcActionOption, actions_listed, ActionData;
    {
    /// Of an action that copies packets, or sends them on.
    Mirror(TcActionMirrorOption);
    /// Of one that changes addresses.
    Nat(TcActionNatOption);
    /// Of one over the metadata of tunnels.
    TunnelKey(TcActionTunnelKeyOption);
    /// Of one that lets packets through, or drops them.
    Gact(TcActionGactOption);
    /// Of one that holds packets to a rate.
    Police(TcActionPoliceOption);
    /// Of one over VLANs.
    Vlan(TcActionVlanOption);
    /// Of one that changes what is kept of a packet.
    Skbedit(TcActionSkbeditOption);
    /// Of one that makes checksums anew.
    Csum(TcActionCsumOption);
    /// Of one over connections.
    Ct(TcActionCtOption);
    /// Of one that samples packets.
    Sample(TcActionSampleOption);
    /// Of one that runs a program.
    Bpf(TcActionBpfOption);
    /// Of one that edits packets.
    Pedit(TcActionPeditOption);
    }
    {
    /// The bytes of options that nothing governs.
    Bytes(Vec<u8>) of Other;
    }
}

/// No bytes are no options.
pub(crate) fn action_list(data: ActionData) -> Vec<TcActionOption> {
    match data {
        ActionData::Other(bytes) if bytes.is_empty() => Vec::new(),
        data => actions_listed(data),
    }
}
