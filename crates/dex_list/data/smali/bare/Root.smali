.class public Lb/Root;
.super Ljava/lang/Object;

.field public final static transient flags:Z
