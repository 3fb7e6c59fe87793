.class final enum Lb/Sealed;
.super Ljava/lang/Enum;
.implements Ljava/lang/Cloneable;
.implements Ljava/io/Serializable;
.implements Ljava/lang/Comparable;

.field public static final enum ONE:Lb/Sealed;
.field private final synthetic value:[Lb/Sealed;
