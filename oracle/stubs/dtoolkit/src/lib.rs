//! Stands for `dtoolkit`: the names by which `platform/qemu.rs` reads and writes a devicetree, with nothing behind them.

use std::marker::PhantomData;

#[derive(Debug)]
pub struct FdtError;

#[derive(Clone, Copy)]
pub struct AnyNode<'a>(PhantomData<&'a ()>);
pub struct AnyProperty<'a>(PhantomData<&'a ()>);
pub struct Reg;

pub trait Node<'a>: Sized {
    fn child(&self, name: &str) -> Option<AnyNode<'a>>;
    fn property(&self, name: &str) -> Option<AnyProperty<'a>>;
    fn reg(&self) -> Result<Option<std::vec::IntoIter<Reg>>, FdtError>;
}

impl<'a> Node<'a> for AnyNode<'a> {
    fn child(&self, _name: &str) -> Option<AnyNode<'a>> {
        unimplemented!("no devicetree")
    }

    fn property(&self, _name: &str) -> Option<AnyProperty<'a>> {
        unimplemented!("no devicetree")
    }

    fn reg(&self) -> Result<Option<std::vec::IntoIter<Reg>>, FdtError> {
        unimplemented!("no devicetree")
    }
}

pub trait Property<'a> {
    fn value_as<T>(&self) -> Result<T, FdtError>;
}

impl<'a> Property<'a> for AnyProperty<'a> {
    fn value_as<T>(&self) -> Result<T, FdtError> {
        unimplemented!("no devicetree")
    }
}

impl Reg {
    pub fn address<T>(&self) -> Result<T, FdtError> {
        unimplemented!("no devicetree")
    }

    pub fn size<T>(&self) -> Result<T, FdtError> {
        unimplemented!("no devicetree")
    }
}

pub mod fdt {
    use super::{AnyNode, FdtError};
    use std::marker::PhantomData;

    pub struct Fdt<'a>(PhantomData<&'a [u8]>);

    impl<'a> Fdt<'a> {
        /// # Safety
        ///
        /// Never called.
        pub unsafe fn from_raw(_blob: *const u8) -> Result<Self, FdtError> {
            unimplemented!("no devicetree")
        }

        pub fn root(&self) -> AnyNode<'a> {
            unimplemented!("no devicetree")
        }
    }
}

pub mod model {
    use super::FdtError;
    use super::fdt::Fdt;

    pub struct DeviceTree {
        pub root: DeviceTreeNode,
    }

    impl DeviceTree {
        pub fn from_fdt(_fdt: &Fdt) -> Self {
            unimplemented!("no devicetree")
        }

        pub fn to_dtb(&self) -> Vec<u8> {
            unimplemented!("no devicetree")
        }
    }

    pub struct DeviceTreeNode;

    impl DeviceTreeNode {
        pub fn builder(_name: impl Into<String>) -> Result<DeviceTreeNodeBuilder, FdtError> {
            unimplemented!("no devicetree")
        }

        pub fn remove_child(&mut self, _name: &str) -> Option<DeviceTreeNode> {
            unimplemented!("no devicetree")
        }

        pub fn add_child(&mut self, _child: DeviceTreeNode) {}
    }

    pub struct DeviceTreeNodeBuilder;

    impl DeviceTreeNodeBuilder {
        pub fn property(self, _property: DeviceTreeProperty) -> Self {
            self
        }

        pub fn build(self) -> DeviceTreeNode {
            DeviceTreeNode
        }
    }

    pub struct DeviceTreeProperty;

    impl DeviceTreeProperty {
        pub fn new(_name: &str, _value: impl Into<Vec<u8>>) -> Result<Self, FdtError> {
            unimplemented!("no devicetree")
        }
    }
}
