// The schemas of which values are drawn: one with every form of type, and two of the consensus layer.
export const chosen = (all, forms) =>
  ({ forms, deneb: all["mainnet/deneb"], "minimal/fulu": all["minimal/fulu"] });
